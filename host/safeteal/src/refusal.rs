numbered! {
    /// Why a call was refused, as an [`Error`](crate::Error) says it. Where several reasons hold, the one with the
    /// lowest number is given; but the readers of a parcel test 9, 10 and 11 first, and 4 after them.
    ///
    /// It is displayed by the words for calls in which no argument alone is at fault.
    ///
    /// ```
    /// use safeteal::{distances, Refusal};
    ///
    /// let error = distances(&mut [0, 255], 0).unwrap_err();
    /// assert_eq!(error.refusal(), Refusal::Size);
    /// assert_eq!(error.refusal().number(), 1);
    /// ```
    #[non_exhaustive]
    #[repr(u8)]
    pub enum Refusal: u8 {
        /// 1: a width or height outside 1 to 4096 (to [`distances`](crate::distances): a width of 0); or frames,
        /// planes, sums or a motion that are not of one size and ratio; or a motion whose blocks do not cover its size.
        Size = 1 =>
            "a width or height is outside 1 to 4096, or there is no such plane: \
             give the sizes of luma (of the plane itself to mask, apply and hold; to distances a width above 0)",
        /// 2: a ratio other than 1, 2 or 4, or one that does not divide a size; or a mask without a whole step.
        Ratio = 2 =>
            "the ratio is not 1, 2 or 4, or does not divide width and height: give luma pixels per chroma pixel \
             (to apply and hold: a mask 1 to 8 times as wide and as high as the plane, of exactly that length)",
        /// 3: a pitch below its row's width or above 65,536.
        Pitch = 3 =>
            "a pitch is below the width of its plane's row or above 65,536: give the distance between two rows' \
             starts",
        /// 4: a slice of a wrong length.
        Length = 4 =>
            "a slice has a wrong length: a plane needs (rows - 1) * pitch + width bytes, a layer slice \
             2 * pitch * rows numbers, and sums, models, covers, masks, motion fields and outputs exactly \
             their length",
        /// 5: a motion number outside its range.
        Motion = 5 =>
            "a motion number is outside its range: grid sides 1 to 4096, block sides 1 to 128, \
             origins -4096 to 4096, pel 1, 2 or 4",
        /// 6: a time, limit or evidence figure outside its range, or NaN.
        Setting = 6 =>
            "a setting is NaN or outside its range: time 0 to 1, limit 0.5 to 255, evidence figure 0 to 65,536",
        /// 7: a number of pairs outside its range.
        Pairs = 7 =>
            "a part holds 1 to 12 pairs: start a new part after twelve, and fit none that has no pair, nor beside \
             one",
        /// 9: a record of a parcel is cut short.
        Record = 9 =>
            "a record of the parcel is cut short: each is the length of its payload (four bytes), its kind (two \
             bytes) and the payload; send the whole parcel again",
        /// 10: the first record of a parcel is not its head, or a kind is unknown, there twice or missing.
        Kind = 10 =>
            "the parcel's first record is not its head, or a kind is unknown, there twice or missing: kinds 1 to 6 \
             stand once each, 1 first",
        /// 11: a parcel's head has not six bytes, or says sizes or a ratio that no call takes; or a payload has not the
        /// length that its head calls for.
        Payload = 11 =>
            "the parcel's head has not six bytes, or says a width or height outside 1 to 4096 or a ratio that is \
             not 1, 2 or 4 or does not divide them, or a payload has not the length that the head calls for",
        /// 12: a pair that a walk is handed over out of turn, after the clip's last or while a layer is due; or a layer
        /// that is taken when none is due.
        Turn = 12 =>
            "a pair is out of turn, after the clip's last, or handed over while a layer is due, or a layer is taken \
             when none is due: hand over pairs 0, 1, 2 and so on, and take each layer before the next pair",
    }
}

impl Refusal {
    /// What an answer's number means; none for 0, which is acceptance.
    ///
    /// # Panics
    /// For a number that no call gives: then this package and the linked library do not belong together.
    pub(crate) fn answered(number: u8) -> Option<Self> {
        let known = Self::of_number(number);
        assert!(
            number == 0 || known.is_some(),
            "the linked library answered {number}, which is no number of a refusal"
        );
        known
    }
}

#[cfg(test)]
mod tests {
    use std::collections::HashSet;

    use super::Refusal;

    #[test]
    fn numbers_and_names_agree() {
        let numbers = [1, 2, 3, 4, 5, 6, 7, 9, 10, 11, 12];
        let answered = |number| Refusal::answered(number).expect("a refusal");
        assert_eq!(numbers.map(answered), Refusal::ALL);
        assert_eq!(numbers.map(|number| answered(number).number()), numbers);
        assert_eq!(Refusal::answered(0), None);
        let others = (0..=u8::MAX).filter(|number| !numbers.contains(number));
        assert!(others.map(Refusal::of_number).all(|found| found.is_none()));
        let words: HashSet<String> = Refusal::ALL.iter().map(ToString::to_string).collect();
        assert_eq!(words.len(), numbers.len());
    }

    #[test]
    #[should_panic = "the linked library answered 8, which is no number of a refusal"]
    fn no_call_answers_8() {
        Refusal::answered(8);
    }
}
