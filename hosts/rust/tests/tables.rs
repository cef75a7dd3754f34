//! Tables read by variable and label, and printed.

use cordbasin::{Tables, Value};

/// Two variables, a record of three fields whose labels are not in order, an
/// empty one, and a kept position of each sort.
fn tables() -> Tables {
    let mut tables = Tables::fresh();
    tables.environment[..4].copy_from_slice(&[4, 0, 0, 0]);
    tables.environment[126..].copy_from_slice(&[2, 1]);
    let record = [2, 3, 31, 3, -5, 4, 4, 1, 0, 1, 0];
    tables.heap[..record.len()].copy_from_slice(&record);
    tables.constraints[..3].copy_from_slice(&[1, 1, 10]);
    tables.constraints[66] = 40;
    tables
}

#[test]
fn cells_are_read_by_variable_and_label() {
    let tables = tables();
    assert_eq!(tables.variable(0), Some(Value::Ref(0)));
    assert_eq!(tables.variable(1), None);
    assert_eq!(tables.variable(63), Some(Value::Bool(true)));
    assert_eq!(tables.variable(64), None);
    assert_eq!(tables.variable(usize::MAX), None);
    assert_eq!(tables.field(0, 31), Some(Value::Int(-5)));
    assert_eq!(tables.field(0, 4), Some(Value::Ref(1)));
    assert_eq!(tables.field(0, 0), Some(Value::Nil));
    assert_eq!(tables.field(0, 1), None);
    assert_eq!(tables.field(1, 0), None);
    assert_eq!(tables.field(2, 0), None);
    assert_eq!(tables.at(0, &[31]), Some(Value::Int(-5)));
    assert_eq!(tables.at(0, &[4]), Some(Value::Ref(1)));
    assert_eq!(tables.at(0, &[4, 0]), None);
    assert_eq!(tables.at(0, &[31, 0]), None);
    assert_eq!(tables.at(63, &[]), Some(Value::Bool(true)));
}

#[test]
fn tables_print_as_the_lister_does() {
    let lines = [
        "v0=ref 0",
        "v63=bool 1",
        "r0=3",
        "r0.31=int -5",
        "r0.4=ref 1",
        "r0.0=nil",
        "r1=0",
        "c0=10",
        "i0=40",
        "",
    ];
    assert_eq!(tables().to_string(), lines.join("\n"));
    assert_eq!(Tables::fresh().to_string(), "");
}

/// Whatever the words are, reading and printing end without a panic.
#[test]
fn unfit_words_read_as_absent() {
    for word in [i32::MIN, -1, 2, 5, 65, i32::MAX] {
        let tables = Tables {
            environment: [word; 128],
            heap: [word; 1601],
            constraints: [word; 98],
        };
        let lines = tables.to_string().lines().count();
        assert!(lines <= 64 + 64 * 9 + 96, "{lines} lines");
        assert_eq!(tables.variable(0), None);
        assert_eq!(tables.at(0, &[0]), None);
    }
}
