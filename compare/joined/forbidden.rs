//! What no answer of the reference may have.

use super::row::{Answer, Commands, Row};

/// What is wrong with the answer to a row, by itself: `before` is the stage of the last accepted row, and `enabled`
/// whether the economizer is.
pub fn forbidden(row: &Row, answer: &Answer, before: u64, enabled: bool) -> Option<&'static str> {
    let Ok(Commands { freeze, relief, .. }) = answer else {
        let handed_on = matches!(answer, Err(1)) && row.is_finite();
        return handed_on.then_some("the economizer hands on a number that is not finite");
    };
    let dampers = (freeze.outdoor_damper_command, freeze.return_damper_command);
    match freeze.freeze_protection_stage {
        3 if dampers != (0.0, 0.0) => Some("a damper is not at 0 at stage 3"),
        3 if relief.fan_speed != [0.0; 4] => Some("a relief fan runs at stage 3"),
        2 if dampers != (0.0, 1.0) => Some("the dampers are not at 0 and 1 at stage 2"),
        _ if before != 0 && enabled => Some("the economizer is enabled on the row after one with a stage"),
        _ => None,
    }
}

#[cfg(test)]
mod tests {
    use super::*;

    /// What is wrong with a stage, its outdoor and return command and the speed of the first relief fan.
    fn found(stage: u64, dampers: (f64, f64), speed: f64) -> Option<&'static str> {
        let mut commands = Commands::default();
        commands.freeze.freeze_protection_stage = stage;
        (commands.freeze.outdoor_damper_command, commands.freeze.return_damper_command) = dampers;
        commands.relief.fan_speed[0] = speed;
        forbidden(&Row::default(), &Ok(commands), stage, false)
    }

    #[test]
    fn dampers_and_fans_are_held_to_their_stage() {
        assert_eq!(found(3, (0.0, 0.0), 0.0), None);
        for dampers in [(0.1, 0.0), (0.0, 0.1)] {
            assert_eq!(found(3, dampers, 0.0), Some("a damper is not at 0 at stage 3"));
        }
        assert_eq!(found(3, (0.0, 0.0), 0.1), Some("a relief fan runs at stage 3"));
        assert_eq!(found(2, (0.0, 1.0), 0.1), None);
        for dampers in [(0.1, 1.0), (0.0, 0.9)] {
            assert_eq!(found(2, dampers, 0.0), Some("the dampers are not at 0 and 1 at stage 2"));
        }
        assert_eq!(found(1, (0.5, 0.5), 0.5), None);
    }

    #[test]
    fn an_economizer_enabled_on_the_row_after_one_with_a_stage_is_found() {
        let found = |before, enabled| forbidden(&Row::default(), &Ok(Commands::default()), before, enabled);
        assert_eq!((found(0, true), found(1, false)), (None, None));
        for stage in 1..=3 {
            assert_eq!(found(stage, true), Some("the economizer is enabled on the row after one with a stage"));
        }
    }

    #[test]
    fn a_finite_row_refused_as_one_that_is_not_is_found() {
        let found = |pressure, status| forbidden(&Row { pressure, ..Row::default() }, &Err(status), 0, false);
        assert_eq!((found(f64::INFINITY, 1), found(0.0, 2)), (None, None));
        assert_eq!(found(0.0, 1), Some("the economizer hands on a number that is not finite"));
    }
}
