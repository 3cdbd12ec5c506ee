//! Wrong copies of the factors, strengths and capacities.
use lvl_second::{Factors, Member, Paper};

wrong_copies! { Rules, Checking:
    DurationLeftOut {
        fn factor_product(factors: &Factors) -> u64 {
            Paper::factor_product(&Factors { duration: 100, ..*factors })
        }
    }
    MoistureLeftOut {
        fn factor_product(factors: &Factors) -> u64 {
            Paper::factor_product(&Factors { moisture: 100, ..*factors })
        }
    }
    OfficeFactorLeftOut {
        fn factor_product(factors: &Factors) -> u64 {
            Paper::factor_product(&Factors { office: 1000, ..*factors })
        }
    }
    DurationCappedAtOne {
        fn duration_factor(code: u64) -> Option<u64> {
            Paper::duration_factor(code).map(|factor| factor.min(100))
        }
    }
    FactorsCappedAtOne {
        fn factor_product(factors: &Factors) -> u64 {
            Paper::factor_product(factors).min(10_000_000)
        }
    }
    StrengthUp {
        fn design_strength(table_value: u64, factor_product: u64) -> u64 {
            (table_value * factor_product).div_ceil(10_000_000)
        }
    }
    StrengthToNearest {
        fn design_strength(table_value: u64, factor_product: u64) -> u64 {
            (table_value * factor_product + 5_000_000) / 10_000_000
        }
    }
    AxialCapacityUp {
        fn axial_capacity(width: u64, height: u64, strength: u64) -> u64 {
            (width * height * strength).div_ceil(1000)
        }
    }
    AxialCapacityToNearest {
        fn axial_capacity(width: u64, height: u64, strength: u64) -> u64 {
            (width * height * strength + 500) / 1000
        }
    }
    BendingCapacityUp {
        fn bending_capacity(width: u64, height: u64, strength: u64) -> u64 {
            (width * height * height * strength).div_ceil(6000)
        }
    }
    BendingCapacityToNearest {
        fn bending_capacity(width: u64, height: u64, strength: u64) -> u64 {
            (width * height * height * strength + 3000) / 6000
        }
    }
    ShearCapacityUp {
        fn shear_capacity(width: u64, height: u64, strength: u64) -> u64 {
            (2 * width * height * strength).div_ceil(3000)
        }
    }
    ShearCapacityToNearest {
        fn shear_capacity(width: u64, height: u64, strength: u64) -> u64 {
            (2 * width * height * strength + 1500) / 3000
        }
    }
    BentFlatwise {
        fn bending_capacity(width: u64, height: u64, strength: u64) -> u64 {
            Paper::bending_capacity(height, width, strength)
        }
    }
    ShearSpreadEvenly {
        fn shear_capacity(width: u64, height: u64, strength: u64) -> u64 {
            width * height * strength / 1000
        }
    }
    BendingByCompression {
        fn design_bending(member: &Member) -> u64 {
            Paper::design_compression(member)
        }
    }
    CompressionByTension {
        fn design_compression(member: &Member) -> u64 {
            Paper::design_tension(member)
        }
    }
    TensionByCompression {
        fn design_tension(member: &Member) -> u64 {
            Paper::design_compression(member)
        }
    }
    ShearOfTheLowestGrade {
        fn design_shear(member: &Member) -> u64 {
            Paper::design_shear(&Member { grade: lvl_second::Grade::K35, ..*member })
        }
    }
}
