//! The comparison of one answer of the C call.

use second::calls;

use crate::calls::Host;
use crate::difference::{same_number, Difference};
use crate::files::Question;

/// Asks both programs; the number, if they agree.
pub fn compare(host: Host, question: &Question) -> Result<u32, Difference> {
    let Question { bytes, p, q } = question;
    let number = host(bytes, *p, *q);
    let right = calls::host(bytes, *p, *q);
    same_number(number, right)
        .map(|()| number)
        .map_err(|what| Difference {
            what,
            input: question.to_string(),
            proved: number.to_string(),
            second: right.to_string(),
        })
}

#[cfg(test)]
mod tests {
    use super::*;
    use crate::stub;

    fn question(bytes: &[u8], p: u64, q: u64) -> Question {
        let bytes = bytes.to_vec();
        Question { bytes, p, q }
    }

    /// Document 01's first sheet.
    const FIRST: [u8; 14] = [1, 1, 1, 1, 0, 2, 2, 1, 1, 0x0a, 3, 1, 1, 0x10];

    #[test]
    fn right_answers_agree() {
        let agreed = |bytes: &[u8], p, q| compare(stub::host, &question(bytes, p, q));
        assert_eq!(agreed(&FIRST, 5, 1), Ok(0));
        assert_eq!(agreed(&FIRST, 4, 1), Ok(100));
        assert_eq!(agreed(&FIRST, 4, 0), Ok(10));
        assert_eq!(agreed(&[], 4, 0), Ok(1));
    }

    #[test]
    fn wrong_answers_are_reported_with_all_of_the_question() {
        let times_first: Host = |file, p, q| if q == 0 { 10 } else { stub::host(file, p, q) };
        let difference = compare(times_first, &question(&[], 7, 0)).unwrap_err();
        assert_eq!(difference.what, "the number is 10, not 1");
        assert_eq!(difference.input, "p 7, q 0, file ");
        for (p, wrong) in [(5, 100), (4, 0)] {
            let always: Host = if wrong == 0 {
                |_, _, _| 0
            } else {
                |_, _, _| 100
            };
            let difference = compare(always, &question(&FIRST, p, 1)).unwrap_err();
            assert_eq!(difference.proved, wrong.to_string());
        }
    }
}
