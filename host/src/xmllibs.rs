//! The few functions of expat and libxml2 that are needed here, declared by hand.

use std::ffi::{c_char, c_int, c_void};
use std::ptr::null;

#[link(name = "expat")]
unsafe extern "C" {
    fn XML_ParserCreate(encoding: *const c_char) -> *mut c_void;
    fn XML_Parse(parser: *mut c_void, bytes: *const u8, length: c_int, is_final: c_int) -> c_int;
    fn XML_ParserFree(parser: *mut c_void);
}

#[link(name = "xml2")]
unsafe extern "C" {
    fn xmlReadMemory(bytes: *const u8, length: c_int, url: *const c_char, encoding: *const c_char, options: c_int) -> *mut c_void;
    fn xmlFreeDoc(document: *mut c_void);
}

const XML_STATUS_OK: c_int = 1;

/// XML_PARSE_NOERROR, XML_PARSE_NOWARNING and XML_PARSE_NONET: nothing is printed and nothing is fetched.
const QUIET: c_int = 32 | 64 | 2_048;

fn length(document: &[u8]) -> c_int {
    c_int::try_from(document.len()).expect("a document far below two gigabytes")
}

/// Whether expat takes a document, parsed with no handlers.
pub fn expat_takes(document: &[u8]) -> bool {
    unsafe {
        let parser = XML_ParserCreate(null());
        assert!(!parser.is_null(), "expat has no memory");
        let status = XML_Parse(parser, document.as_ptr(), length(document), 1);
        XML_ParserFree(parser);
        status == XML_STATUS_OK
    }
}

/// Whether libxml2 takes a document, read into a tree.
pub fn libxml2_takes(document: &[u8]) -> bool {
    unsafe {
        let tree = xmlReadMemory(document.as_ptr(), length(document), null(), null(), QUIET);
        if !tree.is_null() {
            xmlFreeDoc(tree);
        }
        !tree.is_null()
    }
}
