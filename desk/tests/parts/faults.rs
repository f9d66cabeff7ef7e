//! A list of what is wrong, in words.

#[derive(Default)]
pub struct Faults(pub Vec<String>);

impl Faults {
    /// Notes these words where it is not so.
    pub fn unless(&mut self, so: bool, words: impl FnOnce() -> String) {
        if !so {
            self.0.push(words());
        }
    }

    /// Notes what was found where it is not what it should be.
    pub fn same<T: PartialEq + std::fmt::Debug>(&mut self, what: &str, should: T, found: T) {
        self.unless(should == found, || format!("{what} should be {should:?} and is {found:?}"));
    }
}
