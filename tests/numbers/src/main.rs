//! Runs the cases of docs/NUMBERS.md and the examples of README.md through the product's library. Each must have its
//! number, each number must have a case and an example, and no case may be had with one byte or word less; a case that
//! says what is at fault must be accepted without it.

#![forbid(unsafe_code)]

mod calls;
mod readme;

use std::process::ExitCode;

use harness::{ensure, Check, Report, Tally};
use numbers::{cases, number_of, Case};

const NUMBERS: [u32; 24] = [0, 1, 2, 3, 4, 5, 6, 7, 8, 9, 10, 11, 12, 13, 21, 22, 23, 24, 25, 26, 27, 28, 29, 30];

fn main() -> ExitCode {
    let mut report = Report::new("numbers");
    for check in [check_cases, readme::check_examples] {
        let mut tally = Tally::default();
        let checked = check(&mut tally);
        report.add(checked, &tally);
    }
    report.finish()
}

fn check_cases(tally: &mut Tally) -> Check {
    tally.must_reach("cases of docs/NUMBERS.md", NUMBERS);
    for case in cases()? {
        check_case(&case).map_err(|reason| format!("docs/NUMBERS.md, case of answer {}: {reason}", case.answer))?;
        tally.add("cases of docs/NUMBERS.md", case.number().ok_or("an answer without a number")?);
        tally.pass();
    }
    Ok(())
}

fn check_case(case: &Case) -> Check {
    let size = case.schema.len() + [&case.message, &case.stream].into_iter().flatten().map(Vec::len).sum::<usize>();
    ensure(size == case.size, || format!("its size is {size}, not {}", case.size))?;
    let answer = calls::answer(case);
    ensure(answer == case.answer, || format!("the product answers {answer}"))?;
    match &case.fault {
        Some(fault) => check_fault(case, fault),
        None => check_smallest(case),
    }
}

fn check_smallest(case: &Case) -> Check {
    with_less(case).try_for_each(|less| {
        ensure(number_of(&calls::answer(&less)) != case.number(), || format!("the same number with less: {less:?}"))
    })
}

/// The piece stands in the schema once, and without it the schema is accepted.
fn check_fault(case: &Case, fault: &str) -> Check {
    let schema = String::from_utf8_lossy(&case.schema);
    ensure(schema.matches(fault).count() == 1, || format!("{fault} doesn't stand there once"))?;
    let without = Case { schema: schema.replace(fault, "").into_bytes(), ..case.clone() };
    let answer = calls::answer(&without);
    ensure(answer.starts_with("0 "), || format!("without {fault} the product answers {answer}"))
}

/// The case with each byte of its texts and each word of its table left out; of bytes alike side by side the last.
fn with_less(case: &Case) -> impl Iterator<Item = Case> + '_ {
    let schemas = each_left_out(&case.schema).map(|schema| Case { schema, ..case.clone() });
    let messages = case.message.iter().flat_map(|message| each_left_out(message));
    let messages = messages.map(|message| Case { message: Some(message), ..case.clone() });
    let tables = case.table.iter().flat_map(|table| each_left_out(table));
    let tables = tables.map(|table| Case { table: Some(table), ..case.clone() });
    let streams = case.stream.iter().flat_map(|stream| each_left_out(stream));
    schemas.chain(messages).chain(tables).chain(streams.map(|stream| Case { stream: Some(stream), ..case.clone() }))
}

fn each_left_out<T: Copy + PartialEq>(parts: &[T]) -> impl Iterator<Item = Vec<T>> + '_ {
    let last_alike = |place: &usize| parts.get(place + 1) != Some(&parts[*place]);
    (0..parts.len()).filter(last_alike).map(|place| [&parts[..place], &parts[place + 1..]].concat())
}

#[cfg(test)]
mod tests {
    use super::*;

    fn case(schema: &str, answer: &str) -> Case {
        Case { schema: schema.into(), answer: answer.to_string(), size: schema.len(), ..Case::default() }
    }

    #[test]
    fn a_wrong_answer_or_size_or_a_byte_too_many_is_noticed() {
        assert_eq!(check_case(&case("{}", "4 0 0")), Ok(()));
        assert!(check_case(&case("{}", "5 0 0")).is_err() && check_case(&case("{}", "4 0 1")).is_err());
        assert!(check_case(&Case { size: 3, ..case("{}", "4 0 0") }).is_err());
        assert!(check_case(&case("{} ", "4 0 0")).is_err());
    }

    #[test]
    fn a_piece_that_is_not_at_fault_is_noticed() {
        let with =
            |fault: &str| Case { fault: Some(fault.to_string()), ..case("{'enum':'a','data':['b','b']}{}", "4 0 0") };
        assert_eq!(check_case(&Case { fault: Some("{}".to_string()), ..case("{'command':'a'}{}", "4 0 0") }), Ok(()));
        for fault in ["{}", ",'b'", "'a'", "x", "b"] {
            assert!(check_case(&with(fault)).is_err(), "{fault}");
        }
    }

    #[test]
    fn of_bytes_alike_the_last_is_left_out() {
        assert_eq!(each_left_out(b"aab").collect::<Vec<_>>(), [b"ab", b"aa"]);
    }
}
