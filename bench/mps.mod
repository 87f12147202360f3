# The OSeMOSYS long code without storage in GNU MathProg, for the comparison in mps.py: the same rows, columns and entries as the
# program writes, under its short names and with its written factors.
set REGION; set TECHNOLOGY; set FUEL; set EMISSION; set MODE_OF_OPERATION; set TIMESLICE; set YEAR;
set STORAGE; set SEASON; set DAYTYPE; set DAILYTIMEBRACKET;
param YearSplit{l in TIMESLICE, y in YEAR};
param DiscountRate{r in REGION};
param DepreciationMethod{r in REGION};
param TradeRoute{r in REGION, rr in REGION, f in FUEL, y in YEAR};
param SpecifiedAnnualDemand{r in REGION, f in FUEL, y in YEAR};
param SpecifiedDemandProfile{r in REGION, f in FUEL, l in TIMESLICE, y in YEAR};
param AccumulatedAnnualDemand{r in REGION, f in FUEL, y in YEAR};
param CapacityToActivityUnit{r in REGION, t in TECHNOLOGY};
param CapacityFactor{r in REGION, t in TECHNOLOGY, l in TIMESLICE, y in YEAR};
param AvailabilityFactor{r in REGION, t in TECHNOLOGY, y in YEAR};
param OperationalLife{r in REGION, t in TECHNOLOGY};
param ResidualCapacity{r in REGION, t in TECHNOLOGY, y in YEAR};
param InputActivityRatio{r in REGION, t in TECHNOLOGY, f in FUEL, m in MODE_OF_OPERATION, y in YEAR};
param OutputActivityRatio{r in REGION, t in TECHNOLOGY, f in FUEL, m in MODE_OF_OPERATION, y in YEAR};
param CapitalCost{r in REGION, t in TECHNOLOGY, y in YEAR};
param VariableCost{r in REGION, t in TECHNOLOGY, m in MODE_OF_OPERATION, y in YEAR};
param FixedCost{r in REGION, t in TECHNOLOGY, y in YEAR};
param CapacityOfOneTechnologyUnit{r in REGION, t in TECHNOLOGY, y in YEAR};
param TotalAnnualMaxCapacity{r in REGION, t in TECHNOLOGY, y in YEAR};
param TotalAnnualMinCapacity{r in REGION, t in TECHNOLOGY, y in YEAR};
param TotalAnnualMaxCapacityInvestment{r in REGION, t in TECHNOLOGY, y in YEAR};
param TotalAnnualMinCapacityInvestment{r in REGION, t in TECHNOLOGY, y in YEAR};
param TotalTechnologyAnnualActivityUpperLimit{r in REGION, t in TECHNOLOGY, y in YEAR};
param TotalTechnologyAnnualActivityLowerLimit{r in REGION, t in TECHNOLOGY, y in YEAR};
param TotalTechnologyModelPeriodActivityUpperLimit{r in REGION, t in TECHNOLOGY};
param TotalTechnologyModelPeriodActivityLowerLimit{r in REGION, t in TECHNOLOGY};
param ReserveMarginTagTechnology{r in REGION, t in TECHNOLOGY, y in YEAR};
param ReserveMarginTagFuel{r in REGION, f in FUEL, y in YEAR};
param ReserveMargin{r in REGION, y in YEAR};
param RETagTechnology{r in REGION, t in TECHNOLOGY, y in YEAR};
param RETagFuel{r in REGION, f in FUEL, y in YEAR};
param REMinProductionTarget{r in REGION, y in YEAR};
param EmissionActivityRatio{r in REGION, t in TECHNOLOGY, e in EMISSION, m in MODE_OF_OPERATION, y in YEAR};
param EmissionsPenalty{r in REGION, e in EMISSION, y in YEAR};
param AnnualExogenousEmission{r in REGION, e in EMISSION, y in YEAR};
param AnnualEmissionLimit{r in REGION, e in EMISSION, y in YEAR};
param ModelPeriodExogenousEmission{r in REGION, e in EMISSION};
param ModelPeriodEmissionLimit{r in REGION, e in EMISSION};

# Written factors, whole numbers of millionths: each quotient is rounded down. What is formed for the capital and operating factors is
# a whole number below 2^53, which floating point holds; the half-year root and the fraction of the sinking fund are rounded down from
# floating point.
param first := min{y in YEAR} y;
param last := max{y in YEAR} y;
param longest := max(1 + last - first, max{r in REGION, t in TECHNOLOGY} OperationalLife[r,t]);
param Divisor{r in REGION} := 1000000000 + round(1000000000 * DiscountRate[r]);
# The discounted value of 10^18 after n years: the one of the year before by 10^9, divided by Divisor. It is kept as digits to the base
# 10^6 at 2, 1 and 0. The division goes from the highest digit down, with remainders at 3 to 5 and quotients at 6 to 9.
param Discounted{r in REGION, n in 0..longest, i in 0..9} :=
    if n = 0 then (if i = 2 then 1000000 else 0)
    else if i = 2 then 1000 * Discounted[r,n,6] + Discounted[r,n,7] div 1000
    else if i = 1 then 1000 * (Discounted[r,n,7] mod 1000) + Discounted[r,n,8] div 1000
    else if i = 0 then 1000 * (Discounted[r,n,8] mod 1000) + Discounted[r,n,9]
    else if i = 3 then (1000000 * Discounted[r,n-1,2] + Discounted[r,n-1,1]) mod Divisor[r]
    else if i = 4 then (1000000 * Discounted[r,n,3] + Discounted[r,n-1,0]) mod Divisor[r]
    else if i = 5 then (1000000 * Discounted[r,n,4]) mod Divisor[r]
    else if i = 6 then (1000000 * Discounted[r,n-1,2] + Discounted[r,n-1,1]) div Divisor[r]
    else if i = 7 then (1000000 * Discounted[r,n,3] + Discounted[r,n-1,0]) div Divisor[r]
    else if i = 8 then (1000000 * Discounted[r,n,4]) div Divisor[r]
    else (1000 * Discounted[r,n,5]) div Divisor[r];
param CapitalFactor{r in REGION, n in 0..longest} := Discounted[r,n,2] / 1000000;
# The product of the discounted value and the half-year root, of which the digit of 10^24 and above counts.
param HalfYearRoot{r in REGION} := floor(sqrt(1e33 / Divisor[r]));
param OperatingFactor{r in REGION, n in 0..longest} :=
    ((Discounted[r,n,2] * (HalfYearRoot[r] div 1000000)
      + (Discounted[r,n,2] * (HalfYearRoot[r] mod 1000000) + Discounted[r,n,1] * (HalfYearRoot[r] div 1000000)
         + (Discounted[r,n,1] * (HalfYearRoot[r] mod 1000000) + Discounted[r,n,0] * (HalfYearRoot[r] div 1000000)
            + (Discounted[r,n,0] * (HalfYearRoot[r] mod 1000000)) div 1000000) div 1000000) div 1000000) div 1000000) / 1000000;
param Worth{r in REGION, n in 0..longest} := 1e12 * Discounted[r,n,2] + 1e6 * Discounted[r,n,1] + Discounted[r,n,0];
# Whether a capacity outlives the last year, and the method of its salvage value: 1 sinking fund, 2 straight line, 3 none.
param SalvageMethod{r in REGION, t in TECHNOLOGY, y in YEAR} :=
    if y + OperationalLife[r,t] - 1 <= last then 3 else if DepreciationMethod[r] = 1 && DiscountRate[r] > 0 then 1 else 2;
param SalvageFraction{r in REGION, t in TECHNOLOGY, y in YEAR: SalvageMethod[r,t,y] < 3} :=
    (if SalvageMethod[r,t,y] = 1
     then floor(1000000 * (1e18 - Worth[r,OperationalLife[r,t] - (last - y + 1)]) / (1e18 - Worth[r,OperationalLife[r,t]]))
     else (1000000 * (OperationalLife[r,t] - (last - y + 1))) div OperationalLife[r,t]) / 1000000;

var RateOfActivity{r in REGION, l in TIMESLICE, t in TECHNOLOGY, m in MODE_OF_OPERATION, y in YEAR} >= 0;
var NewCapacity{r in REGION, t in TECHNOLOGY, y in YEAR} >= 0;
var Trade{r in REGION, rr in REGION, l in TIMESLICE, f in FUEL, y in YEAR};
var RateOfDemand{r in REGION, l in TIMESLICE, f in FUEL, y in YEAR} >= 0;
var AccumulatedNewCapacity{r in REGION, t in TECHNOLOGY, y in YEAR} >= 0;
var TotalCapacityAnnual{r in REGION, t in TECHNOLOGY, y in YEAR} >= 0;
var RateOfTotalActivity{r in REGION, l in TIMESLICE, t in TECHNOLOGY, y in YEAR} >= 0;
var RateOfProductionByTechnologyByMode{r in REGION, l in TIMESLICE, t in TECHNOLOGY, f in FUEL, m in MODE_OF_OPERATION, y in YEAR} >= 0;
var RateOfProductionByTechnology{r in REGION, l in TIMESLICE, t in TECHNOLOGY, f in FUEL, y in YEAR} >= 0;
var RateOfProduction{r in REGION, l in TIMESLICE, f in FUEL, y in YEAR} >= 0;
var RateOfUseByTechnologyByMode{r in REGION, l in TIMESLICE, t in TECHNOLOGY, f in FUEL, m in MODE_OF_OPERATION, y in YEAR} >= 0;
var RateOfUseByTechnology{r in REGION, l in TIMESLICE, t in TECHNOLOGY, f in FUEL, y in YEAR} >= 0;
var RateOfUse{r in REGION, l in TIMESLICE, f in FUEL, y in YEAR} >= 0;
var Production{r in REGION, l in TIMESLICE, f in FUEL, y in YEAR} >= 0;
var Use{r in REGION, l in TIMESLICE, f in FUEL, y in YEAR} >= 0;
var Demand{r in REGION, l in TIMESLICE, f in FUEL, y in YEAR} >= 0;
var ProductionAnnual{r in REGION, f in FUEL, y in YEAR} >= 0;
var UseAnnual{r in REGION, f in FUEL, y in YEAR} >= 0;
var TradeAnnual{r in REGION, rr in REGION, f in FUEL, y in YEAR};
var ProductionByTechnology{r in REGION, l in TIMESLICE, t in TECHNOLOGY, f in FUEL, y in YEAR} >= 0;
var UseByTechnology{r in REGION, l in TIMESLICE, t in TECHNOLOGY, f in FUEL, y in YEAR} >= 0;
var TotalAnnualTechnologyActivityByMode{r in REGION, t in TECHNOLOGY, m in MODE_OF_OPERATION, y in YEAR} >= 0;
var CapitalInvestment{r in REGION, t in TECHNOLOGY, y in YEAR};
var DiscountedCapitalInvestment{r in REGION, t in TECHNOLOGY, y in YEAR};
var SalvageValue{r in REGION, t in TECHNOLOGY, y in YEAR};
var DiscountedSalvageValue{r in REGION, t in TECHNOLOGY, y in YEAR};
var AnnualVariableOperatingCost{r in REGION, t in TECHNOLOGY, y in YEAR};
var AnnualFixedOperatingCost{r in REGION, t in TECHNOLOGY, y in YEAR};
var OperatingCost{r in REGION, t in TECHNOLOGY, y in YEAR};
var DiscountedOperatingCost{r in REGION, t in TECHNOLOGY, y in YEAR};
var AnnualTechnologyEmissionByMode{r in REGION, t in TECHNOLOGY, e in EMISSION, m in MODE_OF_OPERATION, y in YEAR};
var AnnualTechnologyEmission{r in REGION, t in TECHNOLOGY, e in EMISSION, y in YEAR};
var AnnualTechnologyEmissionPenaltyByEmission{r in REGION, t in TECHNOLOGY, e in EMISSION, y in YEAR};
var AnnualTechnologyEmissionsPenalty{r in REGION, t in TECHNOLOGY, y in YEAR};
var DiscountedTechnologyEmissionsPenalty{r in REGION, t in TECHNOLOGY, y in YEAR};
var TotalDiscountedCostByTechnology{r in REGION, t in TECHNOLOGY, y in YEAR};
var TotalDiscountedCost{r in REGION, y in YEAR};
var ModelPeriodCostByRegion{r in REGION};
var TotalTechnologyAnnualActivity{r in REGION, t in TECHNOLOGY, y in YEAR} >= 0;
var TotalTechnologyModelPeriodActivity{r in REGION, t in TECHNOLOGY} >= 0;
var TotalCapacityInReserveMargin{r in REGION, y in YEAR} >= 0;
var DemandNeedingReserveMargin{r in REGION, l in TIMESLICE, y in YEAR} >= 0;
var ProductionByTechnologyAnnual{r in REGION, t in TECHNOLOGY, f in FUEL, y in YEAR} >= 0;
var TotalREProductionAnnual{r in REGION, y in YEAR} >= 0;
var RETotalProductionOfTargetFuelAnnual{r in REGION, y in YEAR} >= 0;
var UseByTechnologyAnnual{r in REGION, t in TECHNOLOGY, f in FUEL, y in YEAR} >= 0;
var AnnualEmissions{r in REGION, e in EMISSION, y in YEAR};
var ModelPeriodEmissions{r in REGION, e in EMISSION};

minimize cost: sum{r in REGION, y in YEAR} TotalDiscountedCost[r,y];
s.t. EQ_SpecifiedDemand{r in REGION, l in TIMESLICE, f in FUEL, y in YEAR}:
    RateOfDemand[r,l,f,y] * YearSplit[l,y] = SpecifiedAnnualDemand[r,f,y] * SpecifiedDemandProfile[r,f,l,y];
s.t. CAa1{r in REGION, t in TECHNOLOGY, y in YEAR}:
    AccumulatedNewCapacity[r,t,y] = sum{yy in YEAR: y - yy < OperationalLife[r,t] && y - yy >= 0} NewCapacity[r,t,yy];
s.t. CAa2{r in REGION, t in TECHNOLOGY, y in YEAR}: TotalCapacityAnnual[r,t,y] = AccumulatedNewCapacity[r,t,y] + ResidualCapacity[r,t,y];
s.t. CAa3{r in REGION, l in TIMESLICE, t in TECHNOLOGY, y in YEAR}: RateOfTotalActivity[r,l,t,y] = sum{m in MODE_OF_OPERATION} RateOfActivity[r,l,t,m,y];
s.t. CAa4{r in REGION, l in TIMESLICE, t in TECHNOLOGY, y in YEAR}:
    RateOfTotalActivity[r,l,t,y] <= TotalCapacityAnnual[r,t,y] * CapacityFactor[r,t,l,y] * CapacityToActivityUnit[r,t];
s.t. CAb1{r in REGION, t in TECHNOLOGY, y in YEAR}:
    sum{l in TIMESLICE} RateOfTotalActivity[r,l,t,y] * YearSplit[l,y]
    <= sum{l in TIMESLICE} (TotalCapacityAnnual[r,t,y] * CapacityFactor[r,t,l,y] * YearSplit[l,y]) * AvailabilityFactor[r,t,y] * CapacityToActivityUnit[r,t];
s.t. EBa1{r in REGION, l in TIMESLICE, t in TECHNOLOGY, f in FUEL, m in MODE_OF_OPERATION, y in YEAR: OutputActivityRatio[r,t,f,m,y] <> 0}:
    RateOfActivity[r,l,t,m,y] * OutputActivityRatio[r,t,f,m,y] = RateOfProductionByTechnologyByMode[r,l,t,f,m,y];
s.t. EBa2{r in REGION, l in TIMESLICE, t in TECHNOLOGY, f in FUEL, y in YEAR: exists{m in MODE_OF_OPERATION} OutputActivityRatio[r,t,f,m,y] <> 0}:
    sum{m in MODE_OF_OPERATION: OutputActivityRatio[r,t,f,m,y] <> 0} RateOfProductionByTechnologyByMode[r,l,t,f,m,y] = RateOfProductionByTechnology[r,l,t,f,y];
s.t. EBa3{r in REGION, l in TIMESLICE, f in FUEL, y in YEAR}:
    sum{t in TECHNOLOGY: exists{m in MODE_OF_OPERATION} OutputActivityRatio[r,t,f,m,y] <> 0} RateOfProductionByTechnology[r,l,t,f,y] = RateOfProduction[r,l,f,y];
s.t. EBa4{r in REGION, l in TIMESLICE, t in TECHNOLOGY, f in FUEL, m in MODE_OF_OPERATION, y in YEAR: InputActivityRatio[r,t,f,m,y] <> 0}:
    RateOfActivity[r,l,t,m,y] * InputActivityRatio[r,t,f,m,y] = RateOfUseByTechnologyByMode[r,l,t,f,m,y];
s.t. EBa5{r in REGION, l in TIMESLICE, t in TECHNOLOGY, f in FUEL, y in YEAR: exists{m in MODE_OF_OPERATION} InputActivityRatio[r,t,f,m,y] <> 0}:
    sum{m in MODE_OF_OPERATION: InputActivityRatio[r,t,f,m,y] <> 0} RateOfUseByTechnologyByMode[r,l,t,f,m,y] = RateOfUseByTechnology[r,l,t,f,y];
s.t. EBa6{r in REGION, l in TIMESLICE, f in FUEL, y in YEAR}:
    sum{t in TECHNOLOGY: exists{m in MODE_OF_OPERATION} InputActivityRatio[r,t,f,m,y] <> 0} RateOfUseByTechnology[r,l,t,f,y] = RateOfUse[r,l,f,y];
s.t. EBa7{r in REGION, l in TIMESLICE, f in FUEL, y in YEAR}: RateOfProduction[r,l,f,y] * YearSplit[l,y] = Production[r,l,f,y];
s.t. EBa8{r in REGION, l in TIMESLICE, f in FUEL, y in YEAR}: RateOfUse[r,l,f,y] * YearSplit[l,y] = Use[r,l,f,y];
s.t. EBa9{r in REGION, l in TIMESLICE, f in FUEL, y in YEAR}: RateOfDemand[r,l,f,y] * YearSplit[l,y] = Demand[r,l,f,y];
s.t. EBa10{r in REGION, rr in REGION, l in TIMESLICE, f in FUEL, y in YEAR}: Trade[r,rr,l,f,y] + Trade[rr,r,l,f,y] = 0;
s.t. EBa11{r in REGION, l in TIMESLICE, f in FUEL, y in YEAR}:
    Production[r,l,f,y] >= Demand[r,l,f,y] + Use[r,l,f,y] + sum{rr in REGION} Trade[r,rr,l,f,y] * TradeRoute[r,rr,f,y];
s.t. EBb1{r in REGION, f in FUEL, y in YEAR}: sum{l in TIMESLICE} Production[r,l,f,y] = ProductionAnnual[r,f,y];
s.t. EBb2{r in REGION, f in FUEL, y in YEAR}: sum{l in TIMESLICE} Use[r,l,f,y] = UseAnnual[r,f,y];
s.t. EBb3{r in REGION, rr in REGION, f in FUEL, y in YEAR}: sum{l in TIMESLICE} Trade[r,rr,l,f,y] = TradeAnnual[r,rr,f,y];
s.t. EBb4{r in REGION, f in FUEL, y in YEAR}:
    ProductionAnnual[r,f,y] >= UseAnnual[r,f,y] + sum{rr in REGION} TradeAnnual[r,rr,f,y] * TradeRoute[r,rr,f,y] + AccumulatedAnnualDemand[r,f,y];
s.t. Acc1{r in REGION, l in TIMESLICE, t in TECHNOLOGY, f in FUEL, y in YEAR: exists{m in MODE_OF_OPERATION} OutputActivityRatio[r,t,f,m,y] <> 0}:
    RateOfProductionByTechnology[r,l,t,f,y] * YearSplit[l,y] = ProductionByTechnology[r,l,t,f,y];
s.t. Acc2{r in REGION, l in TIMESLICE, t in TECHNOLOGY, f in FUEL, y in YEAR: exists{m in MODE_OF_OPERATION} InputActivityRatio[r,t,f,m,y] <> 0}:
    RateOfUseByTechnology[r,l,t,f,y] * YearSplit[l,y] = UseByTechnology[r,l,t,f,y];
s.t. Acc3{r in REGION, t in TECHNOLOGY, m in MODE_OF_OPERATION, y in YEAR}:
    sum{l in TIMESLICE} RateOfActivity[r,l,t,m,y] * YearSplit[l,y] = TotalAnnualTechnologyActivityByMode[r,t,m,y];
s.t. CC1{r in REGION, t in TECHNOLOGY, y in YEAR}: CapitalCost[r,t,y] * NewCapacity[r,t,y] = CapitalInvestment[r,t,y];
s.t. CC2{r in REGION, t in TECHNOLOGY, y in YEAR}: CapitalInvestment[r,t,y] * CapitalFactor[r,y - first] = DiscountedCapitalInvestment[r,t,y];
s.t. SV1{r in REGION, t in TECHNOLOGY, y in YEAR: SalvageMethod[r,t,y] = 1}: SalvageValue[r,t,y] = CapitalCost[r,t,y] * NewCapacity[r,t,y] * SalvageFraction[r,t,y];
s.t. SV2{r in REGION, t in TECHNOLOGY, y in YEAR: SalvageMethod[r,t,y] = 2}: SalvageValue[r,t,y] = CapitalCost[r,t,y] * NewCapacity[r,t,y] * SalvageFraction[r,t,y];
s.t. SV3{r in REGION, t in TECHNOLOGY, y in YEAR: SalvageMethod[r,t,y] = 3}: SalvageValue[r,t,y] = 0;
s.t. SV4{r in REGION, t in TECHNOLOGY, y in YEAR}: DiscountedSalvageValue[r,t,y] = SalvageValue[r,t,y] * CapitalFactor[r,1 + last - first];
s.t. OC1{r in REGION, t in TECHNOLOGY, y in YEAR}:
    sum{m in MODE_OF_OPERATION} TotalAnnualTechnologyActivityByMode[r,t,m,y] * VariableCost[r,t,m,y] = AnnualVariableOperatingCost[r,t,y];
s.t. OC2{r in REGION, t in TECHNOLOGY, y in YEAR}: TotalCapacityAnnual[r,t,y] * FixedCost[r,t,y] = AnnualFixedOperatingCost[r,t,y];
s.t. OC3{r in REGION, t in TECHNOLOGY, y in YEAR}: AnnualFixedOperatingCost[r,t,y] + AnnualVariableOperatingCost[r,t,y] = OperatingCost[r,t,y];
s.t. OC4{r in REGION, t in TECHNOLOGY, y in YEAR}: OperatingCost[r,t,y] * OperatingFactor[r,y - first] = DiscountedOperatingCost[r,t,y];
s.t. E1{r in REGION, t in TECHNOLOGY, e in EMISSION, m in MODE_OF_OPERATION, y in YEAR: EmissionActivityRatio[r,t,e,m,y] <> 0}:
    EmissionActivityRatio[r,t,e,m,y] * TotalAnnualTechnologyActivityByMode[r,t,m,y] = AnnualTechnologyEmissionByMode[r,t,e,m,y];
s.t. E2{r in REGION, t in TECHNOLOGY, e in EMISSION, y in YEAR}:
    sum{m in MODE_OF_OPERATION: EmissionActivityRatio[r,t,e,m,y] <> 0} AnnualTechnologyEmissionByMode[r,t,e,m,y] = AnnualTechnologyEmission[r,t,e,y];
s.t. E3{r in REGION, t in TECHNOLOGY, e in EMISSION, y in YEAR}:
    AnnualTechnologyEmission[r,t,e,y] * EmissionsPenalty[r,e,y] = AnnualTechnologyEmissionPenaltyByEmission[r,t,e,y];
s.t. E4{r in REGION, t in TECHNOLOGY, y in YEAR}:
    sum{e in EMISSION} AnnualTechnologyEmissionPenaltyByEmission[r,t,e,y] = AnnualTechnologyEmissionsPenalty[r,t,y];
s.t. E5{r in REGION, t in TECHNOLOGY, y in YEAR}:
    AnnualTechnologyEmissionsPenalty[r,t,y] * OperatingFactor[r,y - first] = DiscountedTechnologyEmissionsPenalty[r,t,y];
s.t. TDC1{r in REGION, t in TECHNOLOGY, y in YEAR}:
    DiscountedOperatingCost[r,t,y] + DiscountedCapitalInvestment[r,t,y] + DiscountedTechnologyEmissionsPenalty[r,t,y] - DiscountedSalvageValue[r,t,y]
    = TotalDiscountedCostByTechnology[r,t,y];
s.t. TDC2{r in REGION, y in YEAR}: sum{t in TECHNOLOGY} TotalDiscountedCostByTechnology[r,t,y] = TotalDiscountedCost[r,y];
s.t. Acc4{r in REGION}: ModelPeriodCostByRegion[r] = sum{y in YEAR} TotalDiscountedCost[r,y];
s.t. TCC1{r in REGION, t in TECHNOLOGY, y in YEAR: TotalAnnualMaxCapacity[r,t,y] <> -1}:
    TotalCapacityAnnual[r,t,y] <= TotalAnnualMaxCapacity[r,t,y];
s.t. TCC2{r in REGION, t in TECHNOLOGY, y in YEAR: TotalAnnualMinCapacity[r,t,y] > 0}:
    TotalCapacityAnnual[r,t,y] >= TotalAnnualMinCapacity[r,t,y];
s.t. NCC1{r in REGION, t in TECHNOLOGY, y in YEAR: TotalAnnualMaxCapacityInvestment[r,t,y] <> -1}:
    NewCapacity[r,t,y] <= TotalAnnualMaxCapacityInvestment[r,t,y];
s.t. NCC2{r in REGION, t in TECHNOLOGY, y in YEAR: TotalAnnualMinCapacityInvestment[r,t,y] > 0}:
    NewCapacity[r,t,y] >= TotalAnnualMinCapacityInvestment[r,t,y];
s.t. AAC1{r in REGION, t in TECHNOLOGY, y in YEAR}: sum{l in TIMESLICE} RateOfTotalActivity[r,l,t,y] * YearSplit[l,y] = TotalTechnologyAnnualActivity[r,t,y];
s.t. AAC2{r in REGION, t in TECHNOLOGY, y in YEAR: TotalTechnologyAnnualActivityUpperLimit[r,t,y] <> -1}:
    TotalTechnologyAnnualActivity[r,t,y] <= TotalTechnologyAnnualActivityUpperLimit[r,t,y];
s.t. AAC3{r in REGION, t in TECHNOLOGY, y in YEAR: TotalTechnologyAnnualActivityLowerLimit[r,t,y] > 0}:
    TotalTechnologyAnnualActivity[r,t,y] >= TotalTechnologyAnnualActivityLowerLimit[r,t,y];
s.t. TAC1{r in REGION, t in TECHNOLOGY}: sum{y in YEAR} TotalTechnologyAnnualActivity[r,t,y] = TotalTechnologyModelPeriodActivity[r,t];
s.t. TAC2{r in REGION, t in TECHNOLOGY: TotalTechnologyModelPeriodActivityUpperLimit[r,t] > 0}:
    TotalTechnologyModelPeriodActivity[r,t] <= TotalTechnologyModelPeriodActivityUpperLimit[r,t];
s.t. TAC3{r in REGION, t in TECHNOLOGY: TotalTechnologyModelPeriodActivityLowerLimit[r,t] > 0}:
    TotalTechnologyModelPeriodActivity[r,t] >= TotalTechnologyModelPeriodActivityLowerLimit[r,t];
s.t. RM1{r in REGION, y in YEAR}:
    sum{t in TECHNOLOGY} TotalCapacityAnnual[r,t,y] * ReserveMarginTagTechnology[r,t,y] * CapacityToActivityUnit[r,t] = TotalCapacityInReserveMargin[r,y];
s.t. RM2{r in REGION, l in TIMESLICE, y in YEAR}: sum{f in FUEL} RateOfProduction[r,l,f,y] * ReserveMarginTagFuel[r,f,y] = DemandNeedingReserveMargin[r,l,y];
s.t. RM3{r in REGION, l in TIMESLICE, y in YEAR}: DemandNeedingReserveMargin[r,l,y] * ReserveMargin[r,y] <= TotalCapacityInReserveMargin[r,y];
s.t. RE1{r in REGION, t in TECHNOLOGY, f in FUEL, y in YEAR: exists{m in MODE_OF_OPERATION} OutputActivityRatio[r,t,f,m,y] <> 0}:
    sum{l in TIMESLICE} ProductionByTechnology[r,l,t,f,y] = ProductionByTechnologyAnnual[r,t,f,y];
s.t. RE2{r in REGION, y in YEAR}:
    sum{t in TECHNOLOGY, f in FUEL: exists{m in MODE_OF_OPERATION} OutputActivityRatio[r,t,f,m,y] <> 0}
        ProductionByTechnologyAnnual[r,t,f,y] * RETagTechnology[r,t,y] = TotalREProductionAnnual[r,y];
s.t. RE3{r in REGION, y in YEAR}:
    sum{l in TIMESLICE, f in FUEL} RateOfProduction[r,l,f,y] * YearSplit[l,y] * RETagFuel[r,f,y] = RETotalProductionOfTargetFuelAnnual[r,y];
s.t. RE4{r in REGION, y in YEAR}: REMinProductionTarget[r,y] * RETotalProductionOfTargetFuelAnnual[r,y] <= TotalREProductionAnnual[r,y];
s.t. RE5{r in REGION, t in TECHNOLOGY, f in FUEL, y in YEAR: exists{m in MODE_OF_OPERATION} InputActivityRatio[r,t,f,m,y] <> 0}:
    sum{l in TIMESLICE} UseByTechnology[r,l,t,f,y] = UseByTechnologyAnnual[r,t,f,y];
s.t. E6{r in REGION, e in EMISSION, y in YEAR}: sum{t in TECHNOLOGY} AnnualTechnologyEmission[r,t,e,y] = AnnualEmissions[r,e,y];
s.t. E7{r in REGION, e in EMISSION}: sum{y in YEAR} AnnualEmissions[r,e,y] = ModelPeriodEmissions[r,e] - ModelPeriodExogenousEmission[r,e];
s.t. E8{r in REGION, e in EMISSION, y in YEAR: AnnualEmissionLimit[r,e,y] <> -1}:
    AnnualEmissions[r,e,y] + AnnualExogenousEmission[r,e,y] <= AnnualEmissionLimit[r,e,y];
s.t. E9{r in REGION, e in EMISSION: ModelPeriodEmissionLimit[r,e] <> -1}:
    ModelPeriodEmissions[r,e] <= ModelPeriodEmissionLimit[r,e];
end;
