//! What the reader gives and refuses.

use super::*;

fn events(file: &str) -> Result<String, String> {
    let mut reader = Reader::new(file.as_bytes())?;
    let mut shown = String::new();
    while let Some(event) = reader.next()? {
        match event {
            Event::Begin(name) => shown.extend(["(", name, " "]),
            Event::End(_) => shown.push(')'),
            Event::Character(character) => shown.push(character),
        }
    }
    Ok(shown)
}

#[test]
fn elements_and_characters_are_given() {
    let file = "<?xml version=\"1.0\" encoding='utf-8'?><!DOCTYPE a><!-- <b> --><p:a x='>' y=\"'\"><b/>\
                &lt;&#65;&#x2801;<![CDATA[<&]]><c d='/'></c ></p:a>\n";
    assert_eq!(events(file).unwrap(), "(a (b )<A⠁<&(c ))\n");
    assert_eq!(events("\u{FEFF}<a/>").unwrap(), "(a )");
}

#[test]
fn what_is_no_xml_is_told_by_its_line() {
    let told = |file: &str| events(file).unwrap_err();
    assert_eq!(told("<a>\n<b></a>"), "line 2 of the file: the end of a, where the element that is open is b");
    assert_eq!(told("<a>\n\nx"), "line 3 of the file: the file stops in the element a");
    assert_eq!(told(""), "line 1 of the file: there is no element");
    assert!(told("<a/>x").contains("the character x outside of the root element"));
    assert!(told("<a/><b/>").contains("a second root element, b"));
    assert!(told("<a>&b;</a>").contains("&b; is no character"));
    assert!(told("<a>&#xD800;</a>").contains("is no character"));
    assert!(told("<a>& </a>").contains("without a ;"));
    assert!(told("<a><1></a>").contains("begins no tag"));
    assert!(told("<a><![CDATA[x").contains("stops in a CDATA"));
    assert!(told("<a").contains("stops in a tag"));
    assert!(told("<!-- a").contains("stops in a comment"));
    assert!(told("<!DOCTYPE a [<!ENTITY b 'c'>]><a/>").contains("declarations of its own"));
    assert!(told("<?xml version='1.0' encoding='UTF-16'?><a/>").contains("names the encoding UTF-16"));
    assert!(Reader::new(b"<a>\xFF").err().unwrap().contains("not UTF-8 from byte 3 on"));
    assert!(Reader::new(b"<a>\xE2\xA3").err().unwrap().contains("stops in the character at byte 3"));
}
