//! The published files without any edit, to check the edits with: prints the answer lines that the
//! published goldens hold for a scenario. Those of fine_step hold two outputs, stage and heating
//! coil; the others hold all.
//!
//!     published freeze|fine_step|relief|econ

#[allow(dead_code)]
#[path = "reference/columns.rs"]
mod columns;
#[allow(dead_code)]
#[path = "../docs/src/tools/golden-gen/src/oracle.rs"]
mod oracle;

/// What the published `sequences` module gives its files, as far as these files use it.
#[allow(dead_code)]
#[path = "../docs/src/tools/golden-gen/src/sequences"]
mod sequences {
    mod cdl_recurrences;
    mod economizer_controller;
    mod freeze_protection;
    mod relief_fan_group;

    use crate::oracle::{Golden, InputSeries, Sample, ValueKind};
    use cdl_recurrences::{buildings_line, clamp};

    const ECONOMIZER_CONTROLLER_SINGLE_DAMPER_RELIEF_DAMPER_FIXED_21: &str = "econ";
    const FREEZE_PROTECTION: &str = "freeze";
    const RELIEF_FAN_GROUP: &str = "relief";

    pub fn goldens(scenario: &str) -> Vec<Golden> {
        let published = match scenario {
            "fine_step" => freeze_protection::FREEZE_PROTECTION_FINE_STEP,
            _ => scenario,
        };
        let mut goldens = freeze_protection::goldens();
        goldens.extend(relief_fan_group::goldens());
        goldens.extend(economizer_controller::goldens());
        goldens.retain(|golden| golden.scenario == Some(published));
        goldens
    }

    fn sequence_golden(
        scenario: &'static str,
        signal: &'static str,
        kind: ValueKind,
        time: Vec<f64>,
        samples: Vec<Sample>,
        input_desc: &str,
        rule_desc: &str,
        inputs: Vec<InputSeries>,
    ) -> Golden {
        Golden::new(scenario, signal, kind, time, samples, input_desc, rule_desc)
            .with_scenario(scenario)
            .with_inputs(inputs)
    }

    fn r(value: f64) -> Sample {
        Sample::Real(value)
    }

    fn i(value: i64) -> Sample {
        Sample::Integer(value)
    }

    fn b(value: bool) -> Sample {
        Sample::Boolean(value)
    }

    fn input_r(name: &'static str, values: impl Iterator<Item = f64>) -> InputSeries {
        InputSeries::new(name, ValueKind::Real, values.map(r).collect())
    }

    fn input_i(name: &'static str, values: impl Iterator<Item = i64>) -> InputSeries {
        InputSeries::new(name, ValueKind::Integer, values.map(i).collect())
    }

    fn input_b(name: &'static str, values: impl Iterator<Item = bool>) -> InputSeries {
        InputSeries::new(name, ValueKind::Boolean, values.map(b).collect())
    }
}

use std::io::{self, Write};

use oracle::Sample;

fn main() -> io::Result<()> {
    let scenario = std::env::args().nth(1).unwrap_or_default();
    let goldens = sequences::goldens(&scenario);
    let mut out = Vec::new();
    for index in 0..goldens.first().map_or(0, |golden| golden.time.len()) {
        columns::put_signed(&mut out, 0);
        for golden in &goldens {
            match golden.samples[index] {
                Sample::Real(value) => columns::put_float(&mut out, value),
                Sample::Integer(value) => columns::put_signed(&mut out, value),
                Sample::Boolean(value) => columns::put_flag(&mut out, value),
            }
        }
        out.push(b'\n');
    }
    io::stdout().write_all(&out)
}
