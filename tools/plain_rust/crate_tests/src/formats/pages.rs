use std::dialect::*;

use markup::{
    Attribute, Element, close_element, close_tag, end_leaf, open_tag, push_attribute,
    push_number_attribute, push_text,
};
use std::alloc::{AllocError, Global};
use std::test::Fail;

// A paragraph of a text, which its title has too, and a line after it.
fn paragraph(alloc: Global, text: &str) -> Result<Vec<u8>, AllocError> {
    let mut out = Vec::new(alloc);
    open_tag(&mut out, Element::Paragraph)?;
    push_attribute(&mut out, Attribute::Title, text.as_bytes())?;
    close_tag(&mut out)?;
    push_text(&mut out, text.as_bytes())?;
    close_element(&mut out, Element::Paragraph)?;
    open_tag(&mut out, Element::Path)?;
    push_number_attribute(&mut out, Attribute::Flight, 4_294_967_295)?;
    end_leaf(&mut out)?;
    Ok(out)
}

#[test]
fn has_no_tag_of_a_text() {
    std::test::check(|rt: HostRuntime| -> Result<(), Fail> {
    for (text, inside) in [
        ("", ""),
        ("meter 3", "meter 3"),
        ("</p><script>", "&lt;/p&gt;&lt;script&gt;"),
        ("a \"b\" & 'c'", "a &quot;b&quot; &amp; &#39;c&#39;"),
        ("\u{1}\u{7f}\u{e9}", "\u{fffd}\u{fffd}\u{e9}"),
    ] {
        let page = format!(in rt.alloc();
            "<p title=\"{inside}\">{inside}</p><path data-f=\"4294967295\"/>"
        )?;
        assert_eq!(rt; paragraph(rt.alloc(), text)?.as_slice(), page.as_bytes());
    }
    Ok(())
})
}
