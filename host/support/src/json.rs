//! JSON of the test data. Whatever is not as a test expects it is a failure.

pub use serde_json::Value;

/// The value that each line of the text is; lines without any are left out.
pub fn parse_lines(text: &str) -> Vec<Value> {
    let lines = text.lines().filter(|line| !line.trim().is_empty());
    lines.map(parse).collect()
}

/// The value that the text is; panics if it is none.
pub fn parse(text: &str) -> Value {
    serde_json::from_str(text).unwrap_or_else(|error| panic!("{error} in {text}"))
}

/// What a value holds; panics on a value of another kind.
pub trait Contents {
    /// Whether the object has a member of this name.
    fn has(&self, name: &str) -> bool;

    /// The object's member of this name; panics if there is none.
    fn member(&self, name: &str) -> &Value;

    /// The members of these names, in this order; panics if one is missing,
    /// and if there is any other.
    fn members<const N: usize>(&self, names: [&str; N]) -> [&Value; N];

    /// The object with the other's members in place of its own of the same
    /// names; panics if it has not all of them.
    fn replaced(&self, by: &Value) -> Value;

    /// The number, which is whole and not below 0.
    fn number(&self) -> u64;

    /// The number as a size.
    fn size(&self) -> usize;

    /// The text.
    fn text(&self) -> &str;

    /// The list.
    fn list(&self) -> &[Value];
}

/// What is there; panics with the value that should be of this kind.
fn expected<T>(found: Option<T>, kind: &str, value: &Value) -> T {
    found.unwrap_or_else(|| panic!("not {kind}: {value}"))
}

type Object = serde_json::Map<String, Value>;

fn object(value: &Value) -> &Object {
    expected(value.as_object(), "an object", value)
}

impl Contents for Value {
    fn has(&self, name: &str) -> bool {
        object(self).contains_key(name)
    }

    fn member(&self, name: &str) -> &Value {
        let found = object(self).get(name);
        found.unwrap_or_else(|| panic!("no member {name}"))
    }

    fn members<const N: usize>(&self, names: [&str; N]) -> [&Value; N] {
        for key in object(self).keys() {
            assert!(names.contains(&key.as_str()), "unknown member {key}");
        }
        names.map(|name| self.member(name))
    }

    fn replaced(&self, by: &Value) -> Value {
        let mut members = object(self).clone();
        for (key, value) in object(by) {
            let old = members.insert(key.clone(), value.clone());
            assert!(old.is_some(), "no member {key}");
        }
        Value::Object(members)
    }

    fn number(&self) -> u64 {
        expected(self.as_u64(), "a whole number", self)
    }

    fn size(&self) -> usize {
        usize::try_from(self.number()).expect("a size")
    }

    fn text(&self) -> &str {
        expected(self.as_str(), "a text", self)
    }

    fn list(&self) -> &[Value] {
        expected(self.as_array().map(Vec::as_slice), "a list", self)
    }
}

#[cfg(test)]
mod tests {
    use super::*;
    use serde_json::json;

    #[test]
    fn all_kinds() {
        let value = parse(r#" {"a": [1, null, true, false, []], "b": "x\n\"y\"", "c": {}} "#);
        assert_eq!(value.member("a").list()[0].number(), 1);
        assert_eq!(value.member("a").list()[1], Value::Null);
        assert_eq!(value.member("a").list()[2], Value::Bool(true));
        assert_eq!(value.member("a").list()[3], Value::Bool(false));
        assert_eq!(value.member("a").list()[4], json!([]));
        assert_eq!(value.member("b").text(), "x\n\"y\"");
        assert_eq!(value.member("c"), &json!({}));
    }

    /// Members are given in the order in which they are asked for.
    #[test]
    fn members_by_name() {
        let value = parse(r#"{"a": 1, "b": 2}"#);
        let [b, a] = value.members(["b", "a"]);
        assert_eq!((a.number(), b.number()), (1, 2));
        assert!(value.has("a") && !value.has("c"));
    }

    /// A member that is not asked for is a failure.
    #[test]
    #[should_panic(expected = "unknown member b")]
    fn no_other_members() {
        parse(r#"{"a": 1, "b": 2}"#).members(["a"]);
    }

    /// So is one that is missing.
    #[test]
    #[should_panic(expected = "no member b")]
    fn all_members() {
        parse(r#"{"a": 1}"#).members(["a", "b"]);
    }

    /// Members are replaced by name, and the others stay.
    #[test]
    fn replaced_members() {
        let value = parse(r#"{"a": 1, "b": 2, "c": 3}"#);
        let by = parse(r#"{"c": [], "a": null}"#);
        let expected = parse(r#"{"a": null, "b": 2, "c": []}"#);
        assert_eq!(value.replaced(&by), expected);
    }

    /// What an object has not cannot be replaced.
    #[test]
    #[should_panic(expected = "no member d")]
    fn replaced_member_is_there() {
        parse(r#"{"a": 1}"#).replaced(&parse(r#"{"d": 4}"#));
    }

    /// A number below 0 is not taken for another one.
    #[test]
    #[should_panic(expected = "not a whole number: -1")]
    fn no_number_below_0() {
        parse("-1").number();
    }

    /// Nor is a part of a number.
    #[test]
    #[should_panic(expected = "not a whole number: 1.5")]
    fn no_part_of_a_number() {
        parse("1.5").size();
    }

    /// A text is not taken for a list.
    #[test]
    #[should_panic(expected = "not a list: \"1\"")]
    fn no_other_kind() {
        parse("\"1\"").list();
    }

    #[test]
    fn lines() {
        let values = parse_lines("[1]\n\n4294967296\n");
        assert_eq!(values, [json!([1]), json!(1_u64 << 32)]);
    }

    #[test]
    #[should_panic(expected = "trailing characters")]
    fn nothing_may_follow() {
        parse("1 2");
    }

    #[test]
    #[should_panic(expected = "trailing comma")]
    fn something_must_stand() {
        parse("[1,]");
    }
}
