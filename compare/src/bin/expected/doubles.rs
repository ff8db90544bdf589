//! The test program of Import and Export. A case starts with its kind: 1 is Import of a scale and the bit patterns of five doubles, 2 is
//! Export of a mass and a scale, 3 is Export and then Import of what it gave, in every field at the same scale, 4 is Export in binary32.

use crate::output;
use compare::doubles::{export, export_single, import};
use compare::numbers::{each_case, Numbers};
use compare::program::Program;

/// A double's bit pattern; every NaN is the same.
fn pattern(double: f64) -> String {
    if double.is_nan() {
        "nan".to_string()
    } else {
        double.to_bits().to_string()
    }
}

fn imported(doubles: [f64; 5], scale: u32) -> String {
    match import(doubles, scale) {
        Ok(units) => format!("units{}", output::spaced(units)),
        Err(refused) => format!("{}{}", output::refused(refused.refusal), output::spaced(refused.double.map(pattern))),
    }
}

fn case(numbers: &mut Numbers) -> String {
    let line = match numbers.unsigned() {
        1 => {
            let scale = numbers.word();
            imported([0; 5].map(|_| f64::from_bits(numbers.unsigned())), scale)
        }
        kind @ (2 | 3) => {
            let (mass, scale) = (numbers.word(), numbers.word());
            match export(mass, scale) {
                Ok(double) if kind == 2 => format!("double {}", pattern(double)),
                Ok(double) => imported([double; 5], scale),
                Err(refusal) => output::refused(refusal),
            }
        }
        4 => match export_single(numbers.word(), numbers.word()) {
            Ok(single) => format!("single {}", single.to_bits()),
            Err(refusal) => output::refused(refusal),
        },
        _ => output::NO_KIND.to_string(),
    };
    line + "\n"
}

pub fn expected(program: &Program) -> String {
    each_case(&program.input(), case).concat()
}
