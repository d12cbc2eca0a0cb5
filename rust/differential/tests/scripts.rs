//! The text form goes both ways, listings fit their scripts, and scripts come out alike on every run.

use differential::oracle::listing;
use differential::source::Source;
use differential::{generate, sample, stream};
use script::text::{decode, encode, Missing};
use script::trace::trace;

#[test]
fn text_and_bytes_of_random_scripts_agree() {
    for number in 0..500 {
        let script = generate::script(7, number);
        let text = decode(&script);
        assert_eq!(encode(&text, Missing::Mistake).unwrap(), script, "{text}");
    }
}

/// What `script explain` computes of each line is what the original answers.
#[test]
fn listings_of_random_scripts_fit_them() {
    for number in 0..5000 {
        let script = generate::script(9, number);
        let outcome = trace(&script, &listing(&script), &mut |step| assert_eq!(step.mismatches, [""; 0]));
        assert_eq!(outcome.mismatches, [""; 0], "{}", decode(&script));
    }
}

#[test]
fn text_and_bytes_of_stored_scripts_agree() {
    for (name, script) in sample::scripts() {
        assert_eq!(encode(&decode(&script), Missing::Mistake).unwrap(), script, "{name}");
    }
}

#[test]
fn a_stream_of_scripts_is_read_back() {
    let scripts: Vec<Vec<u8>> = (0..20).map(|number| generate::script(3, number)).collect();
    let mut file = Vec::new();
    for script in &scripts {
        stream::put(&mut file, script);
    }
    assert_eq!(stream::parts(&file).unwrap(), scripts);
    file.pop();
    assert!(stream::parts(&file).is_err());
}

#[test]
fn enumeration_has_about_fifty_calls() {
    let words = ["enumerate", "1", "8", "0"].map(String::from);
    let source = Source::parse(&words).unwrap();
    assert!((45..60).contains(&source.number()), "{} calls", source.number());
    assert_ne!(source.script(0), source.script(1));
}
