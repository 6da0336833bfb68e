"""Tests of the export, on texts that are written here: python3 tools/plain_rust/tests.py"""
import collections
import importlib.machinery
import importlib.util
import os
import re
import sys
import tempfile
import unittest
from unittest import mock

HERE = os.path.dirname(os.path.abspath(__file__))
sys.path.insert(0, HERE)
sys.dont_write_bytecode = True
import border  # noqa: E402
import lexer  # noqa: E402
import lints  # noqa: E402
import one_crate  # noqa: E402
import rewrites  # noqa: E402

loader = importlib.machinery.SourceFileLoader("export", os.path.join(HERE, "export"))
export = importlib.util.module_from_spec(importlib.util.spec_from_loader("export", loader))
loader.exec_module(export)

# Which has the checks of the public calls of nodes.
PAGE = os.path.join(export.TOP, "docs/A-METER-IN-YOUR-DEVICE.md")


def plain(source, crate="some", is_root=False, file="some.rt"):
    """The export of a text, and its counts."""
    tally = collections.Counter()
    return export.exported(crate, f"{crate}/src/{file}", source, is_root, tally)[0], tally


def code(source, **more):
    """The solid tokens of the export."""
    return lexer.solid(lexer.rust_tokens(plain(source, **more)[0]))


def words(text):
    """The solid tokens of a text in Rust."""
    return lexer.solid(lexer.rust_tokens(text))


def read(path):
    with open(path, encoding="utf-8") as file:
        return file.read()


class Tokens(unittest.TestCase):
    def has(self, text, *kinds):
        self.assertEqual([t.kind for t in lexer.rust_tokens(text) if t.kind != "space"], list(kinds))

    def test_a_lifetime_is_no_char(self):
        self.has("'a 'b' b'c' '\\'' '\\u{1f}' '_", "lifetime", "char", "char", "char", "char", "lifetime")

    def test_a_quote_in_a_string_does_not_end_it(self):
        self.has(r'"a\"b" b"x" "\\"', "string", "string", "string")

    def test_a_raw_string_ends_at_its_own_quote(self):
        self.has('r#"a "quoted" b"# br"c\\"', "string", "string")

    def test_comments_are_nested(self):
        self.has("/* a /* b */ c */ x // y", "comment", "ident", "comment")

    def test_a_range_is_no_fraction(self):
        self.assertEqual(words("0..10 1.5 0xff_u8"), ["0", ".", ".", "10", "1.5", "0xff_u8"])

    def test_a_subsequence_keeps_the_order(self):
        self.assertTrue(lexer.is_subsequence("ace", "abcde"))
        self.assertFalse(lexer.is_subsequence("ca", "abc"))


class Deletions(unittest.TestCase):
    def test_clauses_are_comments_in_their_place(self):
        text, tally = plain("fn f(n: u8) -> u8\n    requires small { n ≤ 3 }\n    ensures* one { λ x'. \"}\" ≡ x' }\n{\n    n\n}\n")
        self.assertEqual(
            text, "fn f(n: u8) -> u8\n    // requires small { n ≤ 3 }\n    // ensures* one { λ x'. \"}\" ≡ x' }\n{\n    n\n}\n")
        self.assertEqual((tally["requires"], tally["ensures"], tally["law"]), (1, 1, 0))

    def test_each_line_of_a_clause_is_a_comment(self):
        self.assertEqual(code("fn f()\n    ensures { a\n        × b }\n{ g() }"), words("fn f() { g() }"))

    def test_a_clause_before_a_semicolon_leaves_it(self):
        self.assertEqual(code("trait T { fn f(&self) ensures { x }; }"), words("trait T { fn f(&self); }"))

    def test_a_law_is_marked(self):
        text, tally = plain("pub fn a_law()\n    ensures { Law }\n    ensures more { Law2 }\n{}\n")
        self.assertEqual(text.count("A law, proved in Rattle"), 1)
        self.assertEqual(tally["law"], 1)

    def test_a_call_that_does_nothing_is_no_law(self):
        self.assertEqual(plain("impl T {\n    fn f(&self)\n        ensures { x }\n    {}\n}\n")[1]["law"], 0)

    def test_ghosts_are_gone_with_their_comments(self):
        source = "struct S {\n    // kept\n    a: u8,\n    /// gone\n    pub ghost held: { T -> U },\n    ghost last: { ◌≡◌ }\n}"
        self.assertEqual(plain(source)[0], "struct S {\n    // kept\n    a: u8,\n}\n")
        self.assertEqual(code("impl T for S { ghost view = { λ a. a.b }; fn f() {} }"), words("impl T for S { fn f() {} }"))
        self.assertEqual(code("ghost use a.b.{◌≡◌, ℕ};\nuse c;"), words("use c;"))
        self.assertEqual(code("fn f()\n    ghost like: { T }\n    requires { x }\n{ g() }"), words("fn f() { g() }"))

    def test_drop_is_no_bound_and_no_derive(self):
        self.assertEqual(code("#[derive(Drop)] struct A; #[derive(Clone, Drop)] struct B; #[derive(Drop, Copy)] struct C;"),
                         words("struct A; #[derive(Clone)] struct B; #[derive(Copy)] struct C;"))
        self.assertEqual(code("fn f<A: Drop, B: Drop + X, C: Y + Drop>() {}"), words("fn f<A, B: X, C: Y>() {}"))
        self.assertEqual(code("impl Drop for A { fn f() {} }"), words("impl Drop for A { fn f() {} }"))

    def test_models_hold_no_code(self):
        self.assertEqual(code("use std::marker::{Model, PhantomData};\nimpl<T> Model for S<T> { ghost Value = { ℕ }; }\nfn f() {}"),
                         words("use std::marker::PhantomData; fn f() {}"))
        with self.assertRaises(lexer.Stop):
            code("impl Model for S { fn f() {} }")

    def test_a_formatter_has_no_writer(self):
        self.assertEqual(code("fn fmt<W: fmt::Write>(f: &mut fmt::Formatter<W>) {}"), words("fn fmt(f: &mut fmt::Formatter) {}"))

    def test_the_handle_of_an_expect_is_gone(self):
        self.assertEqual(code('fn f() { a.expect(&rt, "b"); a.expect("c"); }'), words('fn f() { a.expect("b"); a.expect("c"); }'))

    def test_a_reading_for_the_prover_is_gone_with_its_comment(self):
        text = "fn f() {\n    g();\n    // It has a size.\n    let _size = self.a.count();\n    h()\n}\n"
        self.assertEqual(plain(text)[0], "fn f() {\n    g();\n    h()\n}\n")
        for it in ("let _n = a.remove(0);", "let _ = a.len();", "let n = a.len();", "let _n = f(a).len();", "let _n = a.len() + 1;"):
            self.assertEqual(code(f"fn f() {{ {it} }}"), words(f"fn f() {{ {it} }}"))

    def test_what_is_no_known_form_stops(self):
        for source in ("fn f() requires x = { y } {}", "ghost x;", "fn f(a: Vec<Drop>) {}", "fn fmt<V: fmt::Write>(f: fmt::Formatter<V>) {}"):
            with self.assertRaises(lexer.Stop, msg=source):
                code(source)


class Rewrites(unittest.TestCase):
    def test_a_test_gets_its_handle(self):
        text = words("use std::dialect::*; #[test] fn a() { std::test::check(|rt: HostRuntime| -> R { b(rt) }) }")
        self.assertEqual(code("#[test]\nfn a(rt: HostRuntime) -> R { b(rt) }"), text)

    def test_a_root_names_its_std_after_its_own_attributes(self):
        text, _ = plain("//! What it is.\n#![allow(dead_code)]\n\n/// A thing.\npub struct A;\n", is_root=True)
        self.assertTrue(text.startswith("//! What it is.\n#![allow(dead_code)]\n\n#![no_std]\n#![allow(unused)]\n"), text)
        self.assertTrue(text.endswith("extern crate rattle_std as std;\n\n/// A thing.\npub struct A;\n"), text)

    def test_a_program_begins_by_the_entry_of_c(self):
        text, _ = plain("//! It.\nfn main(rt: HostRuntime) -> ExitCode { f(rt) }\n", file="main.rt", is_root=True)
        self.assertIn("#![cfg_attr(not(test), no_main)]\n#![no_std]\n", text)
        self.assertTrue(text.endswith("fn main(rt: HostRuntime) -> ExitCode { f(rt) }\n\nstd::program!(main);\n"), text)

    def test_to_vec_is_the_one_with_an_allocator(self):
        self.assertEqual(code("fn f() { a.to_vec(alloc); a.to_vec(); }"), words("fn f() { a.to_vec_in(alloc); a.to_vec(); }"))

    def test_an_error_is_written_out(self):
        text, _ = plain('use thiserror::Error;\nuse a::B;\n#[derive(Debug, Drop, Error)]\n#[error_bound(K: Display)]\n#[error("{kind} at {place}")]\n'
                        'pub struct F<K> {\n    pub kind: K,\n    pub place: u16,\n}\n')
        self.assertTrue(text.startswith("use a::B;\n#[derive(Debug)]\npub struct F<K> {\n"), text)
        self.assertIn("impl<K: core::fmt::Debug + core::fmt::Display> core::error::Error for F<K> {}", text)
        self.assertIn('Self { kind, place, .. } => core::write!(f, "{kind} at {place}"),', text)
        text, _ = plain('#[derive(Debug, Error)]\nenum E {\n    /// It.\n    #[error("no")]\n    No,\n    #[error("{0}")]\n    Other(Vec<u8, A>),\n}\n')
        self.assertIn('Self::No { .. } => f.write_str("no"),\n            Self::Other(it, ..) => core::write!(f, "{it}"),\n        }', text)
        self.assertNotIn("#[error", text)
        for source in ("#[derive(Debug, Error)] struct S;", '#[derive(Debug, Error)] enum E { #[error("{1}")] A(u8, u8) }', "#[derive(Error)] enum E {}"):
            with self.assertRaises(lexer.Stop, msg=source):
                plain(source)

    def test_a_struct_that_is_written_out_writes_its_fields_in_order(self):
        text, _ = plain("use serde::Serialize;\n#[derive(Drop, Debug, Serialize)]\nstruct S<'a> {\n    b: &'a [u8],\n    /// It.\n    pub a: Option<u64>,\n}\n")
        self.assertIn("impl serde::Serialize for S<'_> {", text)
        self.assertIn('to.serialize_struct("S", 2)?;\n        to.serialize_field("b", &self.b)?;\n        to.serialize_field("a", &self.a)?;\n', text)

    def test_collect_is_the_one_with_an_allocator(self):
        self.assertEqual(code("fn f() { a.collect(alloc); a.collect(); }"), words("fn f() { a.collect_in(alloc); a.collect(); }"))

    def test_a_function_of_frames_json_has_a_frame_of_its_own_on_bare_metal(self):
        with mock.patch.dict(rewrites.FRAMES, {"some/src/some.rt": ["f", "g"]}):
            text = code("impl A {\n    /// It.\n    pub(crate) fn f() {}\n}\n\n#[inline(always)]\nfn g() {}\nfn h() {}")
        bare = '#[cfg_attr(target_os = "none", inline(never))]'
        wanted = f"impl A {{ {bare} pub(crate) fn f() {{}} }} {bare} #[cfg_attr(not(target_os = \"none\"), inline(always))] fn g() {{}} fn h() {{}}"
        self.assertEqual(text, words(wanted))

    def test_a_function_of_frames_json_that_is_not_there_stops(self):
        with mock.patch.dict(rewrites.FRAMES, {"some/src/some.rt": ["f"]}), self.assertRaises(lexer.Stop):
            plain("fn g() {}")

    def test_what_is_written_is_counted(self):
        _, tally = plain("fn f() { a.to_vec(alloc); }")
        self.assertEqual((tally["tokens kept"], tally["tokens written"]), (12, 1))

    def test_a_check_at_the_end_finds_what_was_not_counted(self):
        source = "fn f() { a() }"
        ts = lexer.tokens(source)
        export.check(source, ts, source)
        with self.assertRaises(lexer.Stop):
            export.check(source, ts, "fn f() { b() }")
        ts[2].text = "g"
        with self.assertRaises(lexer.Stop):
            export.check(source, ts, "fn g() { a() }")


class Workspace(unittest.TestCase):
    def test_a_library_without_a_form_is_named(self):
        stands_on = {"a": ["b", "hex", "core", "anyhow"], "b": []}
        self.assertEqual(export.workspace.without_form("a", stands_on), ["anyhow"])

    def test_crates_come_with_what_they_stand_on(self):
        stands_on = {"low": [], "other": ["low"], "high": ["low", "hex"]}
        self.assertEqual(export.workspace.closure(["high"], stands_on), ["low", "high"])


class Folders(unittest.TestCase):
    def setUp(self):
        folder = tempfile.TemporaryDirectory()
        self.addCleanup(folder.cleanup)
        self.new, self.old = f"{folder.name}/new", f"{folder.name}/old"

    def write(self, path, text="", when=None):
        os.makedirs(os.path.dirname(path), exist_ok=True)
        with open(path, "w", encoding="utf-8") as file:
            file.write(text)
        if when is not None:
            os.utime(path, (when, when))

    def test_only_an_earlier_export_is_written_over(self):
        self.assertTrue(export.workspace.is_free(self.old))
        self.write(f"{self.old}/crates/mine.rt")
        self.assertFalse(export.workspace.is_free(self.old))
        self.write(f"{self.old}/{export.workspace.COUNTS}")
        self.assertTrue(export.workspace.is_free(self.old))

    def test_what_is_the_same_stays_and_what_is_no_more_goes(self):
        for name, text in (("same", "a"), ("changed", "b"), ("added", "c")):
            self.write(f"{self.new}/crates/c/{name}.rs", text)
        for name, text in (("same", "a"), ("changed", "a"), ("gone", "d")):
            self.write(f"{self.old}/crates/c/{name}.rs", text, 7)
        export.workspace.move_in(self.new, self.old)
        found = {it: os.stat(f"{self.old}/crates/c/{it}").st_mtime == 7 for it in os.listdir(f"{self.old}/crates/c")}
        self.assertEqual(found, {"same.rs": True, "changed.rs": False, "added.rs": False})

    def test_a_firmware_that_is_there_is_its_makers(self):
        self.write(f"{self.new}/firmware/src/flash.rs", "stand-in")
        self.assertFalse(export.workspace.move_in(self.new, self.old))
        self.write(f"{self.old}/firmware/src/flash.rs", "mine")
        self.assertTrue(export.workspace.move_in(self.new, self.old))
        with open(f"{self.old}/firmware/src/flash.rs", encoding="utf-8") as file:
            self.assertEqual(file.read(), "mine")


class Border(unittest.TestCase):
    def test_a_bound_is_checked(self):
        source = "impl S {\n    pub fn f(&self, index: u8)\n        requires index { index ≤ 1 }\n    {\n        g();\n    }\n}\n"
        text, tally = plain(source, crate="coordinator")
        self.assertIn('{\n        std::required!(index <= 1, "coordinator: f: index");\n        g();', text)
        self.assertEqual(tally["check at the border"], 1)

    def test_each_form_of_a_bound(self):
        for clause, test in (("1 ≤ length body.now", "body.len() >= 1"), ("length body.old ≤ 379", "body.len() <= 379"), ("3 ≤ code", "code >= 3")):
            self.assertEqual(border.check_of("plc_station", "f", clause, {}), test)

    def test_a_bound_is_a_constant(self):
        paths = {"MOST": "far::MOST"}
        for clause, test in (
            ("octets ≤ MOST", "(octets as u64) <= (far::MOST as u64)"),
            ("length body.now ≤ MOST", "(body.len() as u64) <= (far::MOST as u64)"),
            ("length body.old < MOST", "(body.len() as u64) < (far::MOST as u64)"),
            ("MOST ≤ code", "(code as u64) >= (far::MOST as u64)"),
        ):
            self.assertEqual(border.check_of("plc_station", "f", clause, paths), test)
        for clause in ("octets ≤ OTHER", "octets ≤ code", "octets + 1 ≤ MOST", "MOST ≤ MOST", "length out.old.frames ≤ MOST"):
            with self.assertRaises(lexer.Stop, msg=clause):
                border.check_of("plc_station", "f", clause, paths)

    def test_a_constant_is_the_one_that_the_file_names(self):
        source = """ghost use Rattle.far.specs.declared.limits.TheConstants.{ONE,
            TWO};
        ghost use Rattle.coordinator.specs.declared.inner.places.TheConstants.{THREE};
        ghost use Rattle.far.specs.Laws.{FOUR};
        pub(crate) const FIVE: usize = 5;
        const fn six() -> u8 { 6 }"""
        wanted = {"ONE": "far::ONE", "TWO": "far::TWO", "THREE": "crate::inner::places::THREE", "FIVE": "FIVE"}
        self.assertEqual(border.constants(lexer.tokens(source), "coordinator"), wanted)

    def test_a_check_names_a_constant_by_its_path(self):
        source = "ghost use Rattle.far.specs.declared.limits.TheConstants.{MOST};\nimpl S { pub fn f(&self, n: u16) requires few { n ≤ MOST } { g() } }"
        self.assertIn('std::required!((n as u64) <= (far::MOST as u64), "coordinator: f: few");', plain(source, crate="coordinator")[0])

    def test_a_parameter_with_public_fields_is_checked(self):
        text, tally = plain("impl S { pub fn f(&self, it: &Grant, key: &Key) -> A { g() } }", crate="meter_node")
        self.assertIn('std::required!(it.key(it.active).is_some(), "meter_node: f: it");', text)
        self.assertEqual(tally["check at the border"], 1)

    def test_a_clause_that_nobody_knows_stops(self):
        with self.assertRaises(lexer.Stop):
            code("impl S { pub fn f(&self) requires { Odd self.old } { g() } }", crate="meter_node")

    def test_other_crates_and_inner_calls_are_left(self):
        inner = "impl S { pub(crate) fn f(&self) requires { Odd self.old } { g() } }"
        self.assertEqual(plain(inner, crate="meter_node")[1]["check at the border"], 0)
        self.assertEqual(plain(inner.replace("(crate)", ""), crate="routing_set")[1]["check at the border"], 0)


class BorderOfTheNodes(unittest.TestCase):
    """The checks that the crates of this repository get."""

    @classmethod
    def setUpClass(cls):
        cls.checked, cls.unchecked = [], []
        for crate in border.BORDER["crates"]:
            for path in export.sources(os.path.join(export.TOP, "crates", crate, "src")):
                checked, unchecked = border.names(lexer.tokens(read(path)), crate)
                cls.checked += [f"{crate}: {it}" for it in checked]
                cls.unchecked += [f"{crate}: {it}" for it in unchecked]

    def test_each_is_broken_by_a_test(self):
        tested = re.findall(r'stops\("(\w+: \w+: \w+)"', read(os.path.join(HERE, "firmware/tests/border.rs")))
        self.assertEqual(sorted(set(tested)), sorted(self.checked))

    def test_each_stands_in_the_page(self):
        rows = re.findall(r"^\| (`\w+::.*`) \| (.*) \|$", read(PAGE), re.MULTILINE)
        of = {"Station": "plc_station", "Meter": "meter_node", "Coordinator": "coordinator"}
        said = [f"{of[kind]}: {call}: {clause}" for calls, words in rows for kind, call in re.findall(r"`(\w+)::(\w+)`", calls)
                for clause in re.findall(r"`(\w+)`", words)]
        self.assertEqual(sorted(said), sorted(self.checked))

    def test_each_type_with_an_invariant_hides_its_fields_or_is_checked(self):
        for crate in export.workspace.closure(border.BORDER["crates"], export.workspace.read_crates(export.TOP)):
            for path in export.sources(os.path.join(export.TOP, "crates", crate, "src")):
                text = read(path)
                for name, body in re.findall(r"^impl(?:<.*>)? Model for (\w+).*?\{\n(.*?)^\}", text, re.MULTILINE | re.DOTALL):
                    fields = re.search(rf"^pub struct {name}\b.*?^\}}|^pub struct {name}\b.*;$", text, re.MULTILINE | re.DOTALL)
                    if "ghost invariant" in body and fields and re.search(r"\bpub (?!struct|ghost|\()", fields.group(0)):
                        self.assertIn(name, border.BORDER["types"], path)

    def test_what_is_not_checked_is_that_memory_and_store_agree(self):
        self.assertEqual({it.split(": ")[2] for it in self.unchecked}, {"agrees"})
        self.assertIn(f"{len(self.unchecked)} calls require it", read(PAGE))


class OneCrate(unittest.TestCase):
    def test_a_contract_stands_in_the_documentation(self):
        text = "/// Does it.\n#[inline]\npub fn it(\n    a: u8,\n) -> u8\n    // A remark.\n    // ensures same { result ≡ a }\n{\n    a\n}\n"
        shown = "/// Does it.\n///\n/// # Contract\n///\n/// ```text\n/// A remark.\n/// ensures same { result ≡ a }\n/// ```\n#[inline]\n"
        self.assertEqual(one_crate.with_contracts(text), shown + text.split("#[inline]\n")[1])
        call = "    /// Does it.\n    fn it(&self)\n        // ensures { result ≡ a }\n    ;\n"
        self.assertIn("/// # Contract", one_crate.with_contracts(f"pub trait It {{\n{call}}}\n"))
        for other in (f"impl It {{\n{call}}}\n", "/// Does it.\npub fn it() {}\n// ensures\n", text.replace("///", "//")):
            self.assertEqual(one_crate.with_contracts(other), other)

    def test_a_check_stands_in_the_documentation(self):
        check = '    crate::required!(a < 3, "own: it: small");\n'
        text = f"/// Does it.\npub fn it(a: u8)\n    // requires small {{ a < 3 }}\n{{\n{check}    b(a)\n}}\n"
        shown = "/// Does it.\n///\n/// # Panics\n///\n/// - where `requires small` does not hold, which is checked by `a < 3`\n///\n/// # Contract\n"
        self.assertTrue(one_crate.with_contracts(text).startswith(shown), one_crate.with_contracts(text))
        self.assertNotIn("Panics", one_crate.with_contracts(text.replace(check, "")))

    def test_links_lead_into_the_one_crate(self):
        text = "/// [`It`], [`other::It`], [`it`](crate::it), [`a_law`], [`laws::b`], [`c`](It::c).\npub fn it() { x[`a`] }\n"
        wanted = "/// [`It`], [`other::It`](crate::other::It), [`it`](crate::own::it), `a_law`, `laws::b`, [`c`](It::c).\npub fn it() { x[`a`] }\n"
        self.assertEqual(one_crate.with_links(text, "own", {"own", "other"}, {"a_law", "laws"}), wanted)

    def test_a_changed_place_is_found_by_lines_that_are_there_once(self):
        old, new = "a\nb\na\nb\nc\nd\n", "a\nb\na\nx\nb\nc\ne\nd\n"
        rows = lints.hunks("it.rs", old, new)
        for _, before, after in rows:
            self.assertEqual(old.count(before), 1)
            old = old.replace(before, after)
        self.assertEqual(old, new)


class Exports(unittest.TestCase):
    def exported(self, target, *given):
        """Exports from a repository of two crates, as by these words. Returns what MADE-FROM says of it."""
        with mock.patch.object(sys, "argv", ["export", target, *given, "--sources", self.sources]), mock.patch("builtins.print"):
            export.main()
        return export.made_from.read(target)

    def setUp(self):
        room = tempfile.TemporaryDirectory()
        self.addCleanup(room.cleanup)
        self.sources, self.target = os.path.join(room.name, "repository"), os.path.join(room.name, "plain")
        for crate in ("high", "low"):
            os.makedirs(os.path.join(self.sources, "crates", crate, "src"))
            self.write(crate, "pub fn f() {}\n")
        with open(os.path.join(self.sources, "crates.txt"), "w", encoding="utf-8") as file:
            file.write("low:\nhigh: low\n")

    def write(self, crate, text):
        with open(os.path.join(self.sources, "crates", crate, "src", "lib.rt"), "w", encoding="utf-8") as file:
            file.write(text)

    def test_words_are_remembered(self):
        self.assertEqual(self.exported(self.target, "low", "--member", "mine")[1:], (["low"], ["mine"]))
        self.assertEqual(self.exported(self.target)[1:], (["low"], ["mine"]))
        self.assertFalse(os.path.exists(f"{self.target}/crates/high"))
        self.assertEqual(self.exported(self.target, "--also", "high")[1:], (["high", "low"], ["mine"]))
        self.assertEqual(self.exported(self.target, "high")[1:], (["high"], ["mine"]))
        self.assertEqual(self.exported(self.target, "--all")[1:], ([], ["mine"]))
        self.assertIn('"crates/low", "mine"]', read(f"{self.target}/Cargo.toml").replace('"crates/high", ', ""))

    def test_what_a_user_changed_of_the_settings_stays(self):
        self.exported(self.target)
        self.assertIn("x86-64-v2", read(f"{self.target}/.cargo/config.toml"))
        with open(f"{self.target}/.cargo/config.toml", "w", encoding="utf-8") as file:
            file.write("# mine\n")
        self.exported(self.target)
        self.assertEqual(read(f"{self.target}/.cargo/config.toml"), "# mine\n")

    def test_a_crate_is_exported_again_where_its_source_or_its_export_changed(self):
        self.exported(self.target)
        with mock.patch.object(export, "export_crate", side_effect=AssertionError("again")):
            self.exported(self.target)
        counts = read(f"{self.target}/counts.tsv")
        with open(f"{self.target}/crates/low/src/lib.rs", "a", encoding="utf-8") as file:
            file.write("pub fn mine() {}\n")
        self.exported(self.target)
        self.assertNotIn("mine", read(f"{self.target}/crates/low/src/lib.rs"))
        self.assertEqual(read(f"{self.target}/counts.tsv"), counts)
        self.write("low", "pub fn g() {}\n")
        self.exported(self.target)
        self.assertIn("pub fn g", read(f"{self.target}/crates/low/src/lib.rs"))


if __name__ == "__main__":
    unittest.main()
