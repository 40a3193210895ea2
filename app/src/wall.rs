//! `wall`: the store as one page of HTML that needs nothing else, written to a file or served.
//!
//! A draft is shown as clean only where its verdict stands for all files that the store has taken in.

use crate::engine::{self, Engine, Judged};
use crate::files::{self, Input};
use crate::formats::Reading;
use crate::night::now;
use crate::store::{Access, Answer, Digest, Draft, Store, TableFile, Verdict};
use crate::text::{complain, counted, excerpt, shown, Excerpt, Lines};
use crate::{words, Status};
use clap::Args;
use sha2::{Digest as _, Sha256};
use std::collections::BTreeSet;
use std::io::{self, Write};
use std::net::{SocketAddr, ToSocketAddrs};
use std::os::unix::ffi::OsStrExt;
use std::path::{Path, PathBuf};
use tiny_http::{Header, Method, Request, Response, Server};

const STYLE: &str = include_str!("wall/page.css");
const SCRIPT: &str = include_str!("wall/page.js");

/// The most findings of a draft that the page lists.
const LISTED: usize = 200;

/// Tables without a row: under these a check gives the elements of a draft.
const NO_TABLES: &[u8] = b"0\n0\n0\n";

/// Seconds after which a served page is asked for again, and requests that are answered at the same time.
const AGAIN: u32 = 60;
const AT_A_TIME: usize = 4;

const LOOPBACK: &str = "127.0.0.1";

#[derive(Args)]
#[command(group(clap::ArgGroup::new("to").args(["out", "listen"]).required(true).multiple(true)))]
pub struct WallArgs {
    /// The store of a night
    #[arg(long, value_name = "FILE")]
    store: PathBuf,
    /// The page to write
    #[arg(long, value_name = "FILE")]
    out: Option<PathBuf>,
    /// Serve the page: a port of this machine alone (8035 if none is named), or ADDRESS:PORT
    #[arg(long, value_name = "ADDRESS", num_args = 0..=1, default_missing_value = "8035")]
    listen: Option<String>,
    /// The page says that it is old when nothing was taken in for so many hours
    #[arg(long, value_name = "HOURS", default_value_t = 12, value_parser = clap::value_parser!(u32).range(1..=8760))]
    old_after: u32,
}

/// An error is one of standard output.
pub fn run(args: &WallArgs) -> io::Result<Status> {
    match show(args) {
        Ok(()) => Ok(Status::Clean),
        Err(Fault::Line(line)) => {
            complain(&line);
            Ok(Status::Failed)
        }
        Err(Fault::Output(error)) => Err(error),
    }
}

enum Fault {
    /// One line for standard error.
    Line(String),
    /// Standard output cannot be written.
    Output(io::Error),
}

impl From<String> for Fault {
    fn from(line: String) -> Fault {
        Fault::Line(line)
    }
}

fn show(args: &WallArgs) -> Result<(), Fault> {
    if let Some(out) = &args.out {
        let page = page(&args.store, args.old_after, false, &mut Engine::new())?;
        files::write_whole(out, page.as_bytes())
            .map_err(|why| format!("{}: cannot be written: {why}", shown(out.as_os_str().as_bytes())))?;
    }
    match &args.listen {
        Some(address) => serve(args, address),
        None => Ok(()),
    }
}

/// Serves the page until the program is ended. The store is read anew for each request.
fn serve(args: &WallArgs, address: &str) -> Result<(), Fault> {
    // A store that cannot be read is told of at once, and not only on the page.
    Store::open(&args.store, Access::Read)?;
    let address = socket_address(address)?;
    let server = Server::http(address).map_err(|why| format!("cannot listen on {address}: {why}"))?;
    let address = server.server_addr().to_ip().unwrap_or(address);
    writeln!(io::stdout(), "the wall is at http://{address}/").and_then(|()| io::stdout().flush()).map_err(Fault::Output)?;
    let answer = |engine: &mut Engine, _: &()| {
        while let Ok(request) = server.recv() {
            // A reader that went away misses nothing.
            let _ = respond(request, args, address, engine);
        }
    };
    engine::on_all(&[(); AT_A_TIME], AT_A_TIME, answer, || ());
    Err(Fault::Line(format!("http://{address}/ is no longer served")))
}

/// A port alone is one of the loopback address.
fn socket_address(address: &str) -> Result<SocketAddr, String> {
    let unknown = || format!("{} is no address to listen on: a port, or ADDRESS:PORT", shown(address.as_bytes()));
    match address.parse::<u16>() {
        Ok(port) => (LOOPBACK, port).to_socket_addrs(),
        Err(_) => address.to_socket_addrs(),
    }
    .ok()
    .and_then(|mut addresses| addresses.next())
    .ok_or_else(unknown)
}

fn respond(request: Request, args: &WallArgs, address: SocketAddr, engine: &mut Engine) -> io::Result<()> {
    let (status, text) = match (request.method(), request.url()) {
        _ if address.ip().is_loopback() && !names_this_machine(&request) => (403, "not served under this name\n".to_string()),
        (Method::Get, "/") => match page(&args.store, args.old_after, true, engine) {
            Ok(page) => (200, page),
            Err(line) => {
                complain(&line);
                (503, trouble(&line))
            }
        },
        (Method::Get, _) => (404, "only / is there\n".to_string()),
        _ => (405, "only GET is answered\n".to_string()),
    };
    let kind = if text.starts_with("<!DOCTYPE") { "text/html; charset=utf-8" } else { "text/plain; charset=utf-8" };
    let headers =
        [("Content-Type", kind), ("Cache-Control", "no-store"), ("X-Content-Type-Options", "nosniff"), ("X-Frame-Options", "DENY")];
    let response = Response::from_string(text).with_status_code(status);
    // All are plain text, so each is a header.
    let headers = headers.iter().filter_map(|(name, value)| Header::from_bytes(name.as_bytes(), value.as_bytes()).ok());
    request.respond(headers.fold(response, Response::with_header))
}

/// Whether a request comes under a name of this machine: a page of elsewhere that has its own name point here is not let in.
fn names_this_machine(request: &Request) -> bool {
    let host = request.headers().iter().find(|header| header.field.equiv("Host")).map_or("", |header| header.value.as_str());
    let name = host.rsplit_once(':').map_or(host, |(name, port)| if port.bytes().all(|byte| byte.is_ascii_digit()) { name } else { host });
    name == "localhost" || name.trim_matches(['[', ']']).parse::<std::net::IpAddr>().is_ok_and(|address| address.is_loopback())
}

/// The page in the place of one that cannot be made: it tries again.
fn trouble(line: &str) -> String {
    let body = format!("<body class=\"old\"><p id=\"old\">There is no page now: {}</p></body></html>\n", html(line));
    head("no page", true) + &body
}

/// How a draft is shown, worst first.
#[derive(Clone, Copy, PartialEq, Eq, PartialOrd, Ord)]
enum State {
    Refused,
    Unjudged,
    Broken,
    Clean,
}

const STATES: [State; 4] = [State::Refused, State::Unjudged, State::Broken, State::Clean];

impl State {
    fn word(self) -> &'static str {
        match self {
            State::Refused => "refused",
            State::Unjudged => "not judged",
            State::Broken => "broken",
            State::Clean => "clean",
        }
    }

    fn class(self) -> &'static str {
        match self {
            State::Unjudged => "unjudged",
            _ => self.word(),
        }
    }
}

/// A draft's row: what it is sorted by, and its HTML.
struct Row {
    state: State,
    findings: usize,
    html: String,
}

/// The page of a store.
fn page(path: &Path, old_after: u32, served: bool, engine: &mut Engine) -> Result<String, String> {
    let store = Store::open(path, Access::Read)?;
    let files = store.files()?;
    let touched = store.touched()?;
    let drafts = store.drafts()?;
    let mut rows = Vec::with_capacity(drafts.len());
    for listed in drafts {
        let draft = store.draft(&listed.name)?;
        rows.push(row(&listed.name, &draft, &files, engine).map_err(|what| store.damaged(&what))?);
    }
    // Those of one kind stay in the order of their names.
    rows.sort_by_key(|row| (row.state, std::cmp::Reverse(row.findings)));

    let now = now();
    let limit = i64::from(old_after) * 3600;
    let old = now.abs_diff(touched) > limit.unsigned_abs();
    let counts = STATES.map(|state| (state, rows.iter().filter(|row| row.state == state).count()));
    let counts: Vec<_> = counts.into_iter().filter(|&(_, count)| count > 0).collect();
    let title: Vec<_> = counts.iter().map(|(state, count)| format!("{count} {}", state.word())).collect();
    let (touched_at, written_at) = (store.clock(touched)?, store.clock(now)?);

    let mut page = head(&title.join(", "), served);
    page += &format!("<body data-touched=\"{touched}\" data-old-after=\"{limit}\"{}>\n<header>\n", if old { " class=\"old\"" } else { "" });
    page += &format!(
        "<p id=\"old\"{}>This page is old: the store was last changed at {touched_at}, more than {} from now.</p>\n",
        if old { "" } else { " hidden" },
        counted(old_after as usize, "hour")
    );
    let spans = counts.iter().map(|(state, count)| format!("<span class=\"{}\">{count} {}</span>", state.class(), state.word()));
    page += &format!("<h1>{}</h1>\n", spans.collect::<Vec<_>>().join("\n"));
    page += &format!("<p class=\"asof\">Written {written_at}; store last changed {touched_at}</p>\n");
    page += "<h2>Judged under</h2>\n<ol class=\"files\">\n";
    for (number, file) in files.iter().enumerate() {
        let (came, taken) = (if number == 0 { "the night's tables, taken in" } else { "added" }, store.clock(file.taken)?);
        page += &format!(
            "<li><bdi>{}</bdi> {came} {taken} <span class=\"small\">SHA-256 {}</span></li>\n",
            name_html(&file.name),
            short(&file.digest)
        );
    }
    page += &format!("<li class=\"small\">Times are {}.</li>\n", store.zone(now)?);
    page += "</ol>\n</header>\n<main>\n";
    rows.iter().for_each(|row| page += &row.html);
    page += &format!("</main>\n<script>{SCRIPT}</script>\n</body>\n</html>\n");
    Ok(page)
}

/// All before the body. Nothing but the page's own style and script is let work in it, whatever a draft says.
fn head(title: &str, again: bool) -> String {
    let policy =
        format!("default-src 'none'; style-src '{}'; script-src '{}'; base-uri 'none'; form-action 'none'", source(STYLE), source(SCRIPT));
    let again = if again { format!("<meta http-equiv=\"refresh\" content=\"{AGAIN}\">\n") } else { String::new() };
    format!(
        "<!DOCTYPE html>\n<html lang=\"en\">\n<head>\n<meta charset=\"utf-8\">\n<meta http-equiv=\"Content-Security-Policy\" content=\"{policy}\">\n\
         <meta name=\"viewport\" content=\"width=device-width, initial-scale=1\">\n<meta name=\"referrer\" content=\"no-referrer\">\n{again}\
         <title>{} - Benchdowel</title>\n<style>{STYLE}</style>\n</head>\n",
        html(title)
    )
}

fn row(name: &[u8], draft: &Draft, files: &[TableFile], engine: &mut Engine) -> Result<Row, String> {
    let (state, findings, more, body) = match draft {
        Draft::Unread(why) => (State::Unjudged, 0, format!("cannot be read: {}", html(&shown(why.as_bytes()))), String::new()),
        Draft::Judged { document, verdict } => {
            let (state, findings, more, body) = judged(name, document, verdict, engine)?;
            let body = format!("{body}<p class=\"small\">SHA-256 of the draft {}</p>\n", hex(&verdict.stands_for.draft));
            match lacks(verdict, files) {
                None => (state, findings, more, body),
                Some(lack) => {
                    let more = format!("{lack}; before that {}{}", state.word(), if more.is_empty() { more } else { format!(", {more}") });
                    (State::Unjudged, findings, more, body)
                }
            }
        }
    };
    let (class, word, name) = (state.class(), state.word(), name_html(name));
    let html = format!(
        "<details class=\"draft\" data-name=\"{name}\">\n<summary><span class=\"word {class}\">{word}</span> <bdi>{name}</bdi> \
         <span class=\"more\">{more}</span></summary>\n<div class=\"body\">\n{body}</div>\n</details>\n"
    );
    Ok(Row { state, findings, html })
}

/// What keeps a verdict from standing for the files that the store has taken in.
fn lacks(verdict: &Verdict, files: &[TableFile]) -> Option<String> {
    let judged = &verdict.stands_for.files;
    let missing: Vec<_> = files.iter().filter(|file| !judged.contains(&file.digest)).map(|file| name_html(&file.name)).collect();
    let other = judged.iter().any(|digest| files.iter().all(|file| file.digest != *digest));
    match (missing.is_empty(), other) {
        (true, false) => None,
        (true, true) => Some("judged under tables that the store no longer has".to_string()),
        (false, _) => Some(format!("not judged under {}", missing.join(", "))),
    }
}

/// How a draft is by its verdict, with its findings, a few words beside its name, and what its row opens.
fn judged(name: &[u8], document: &Input, verdict: &Verdict, engine: &mut Engine) -> Result<(State, usize, String, String), String> {
    match &verdict.answer {
        Answer::Found(findings) if findings.is_empty() => Ok((State::Clean, 0, String::new(), "<p>No finding.</p>\n".to_string())),
        Answer::Found(findings) => {
            let none_of_it = |_| format!("the list of {} is none of this draft", shown(name));
            let elements = engine.check(&document.bytes, NO_TABLES).map_err(none_of_it)?.elements;
            let judged = Judged { findings: findings.clone(), elements };
            let reading = Reading::of(&document.bytes, &judged);
            let mut body = "<ol>\n".to_string();
            for found in reading.found().take(LISTED) {
                let excerpt = excerpt(&document.bytes, &reading.lines, found.finding.first as usize, 1 + found.name.len());
                body += &format!(
                    "<li><p><b>{}</b> {}</p>\n{}<p>{}</p>\n<p class=\"small\">{}</p></li>\n",
                    found.finding.procedure,
                    html(found.short()),
                    place(&excerpt, &found.path),
                    html(found.todo()),
                    html(found.printed())
                );
            }
            body += "</ol>\n";
            if findings.len() > LISTED {
                body += &format!("<p>and {} more, which <code>benchdowel check</code> lists</p>\n", findings.len() - LISTED);
            }
            let numbers: BTreeSet<_> = findings.iter().map(|finding| finding.procedure).collect();
            let numbers: Vec<_> = numbers.iter().map(u32::to_string).collect();
            let more = format!("{}: {}", counted(findings.len(), "finding"), numbers.join(", "));
            Ok((State::Broken, findings.len(), more, body))
        }
        Answer::Refused(refusal) => {
            let said = html(&words::refused(*refusal, document.length));
            let (says, todo) = words::refusal(refusal.number).map_or(("", ""), |words| (&words.says, &words.todo));
            let (more, place) = match words::is_in_document(*refusal) {
                true => {
                    let first = refusal.place.min(document.bytes.len());
                    let excerpt = excerpt(&document.bytes, &Lines::of(&document.bytes), first, 1);
                    (format!("line {}: {said}", excerpt.line), place(&excerpt, ""))
                }
                false => (said, String::new()),
            };
            let body = format!("<p><b>r{}</b> {}</p>\n{place}<p>{}</p>\n", refusal.number, html(says), html(todo));
            Ok((State::Refused, 0, more, body))
        }
    }
}

/// Where something is, with the excerpt around it.
fn place(excerpt: &Excerpt, path: &str) -> String {
    let Excerpt { line, column, text, mark } = excerpt;
    let (before, marked, after) = (&text[..mark.start], &text[mark.clone()], &text[mark.end..]);
    let path = if path.is_empty() { String::new() } else { format!(" <code>{}</code>", html(path)) };
    let (before, marked, after) = (html(before), html(marked), html(after));
    format!("<p class=\"where\">line {line}, column {column}{path}</p>\n<pre>{before}<mark>{marked}</mark>{after}</pre>\n")
}

/// A file's name for the page.
fn name_html(name: &[u8]) -> String {
    html(&shown(name))
}

/// Text for the page, in an element or in quotes. Control and format characters were made visible before.
fn html(text: &str) -> String {
    let mut escaped = String::with_capacity(text.len());
    for character in text.chars() {
        match character {
            '&' => escaped.push_str("&amp;"),
            '<' => escaped.push_str("&lt;"),
            '>' => escaped.push_str("&gt;"),
            '"' => escaped.push_str("&quot;"),
            '\'' => escaped.push_str("&#39;"),
            _ => escaped.push(character),
        }
    }
    escaped
}

fn hex(digest: &Digest) -> String {
    digest.iter().map(|byte| format!("{byte:02x}")).collect()
}

/// The front of a digest, enough to tell two files of one name from another.
fn short(digest: &Digest) -> String {
    hex(digest).chars().take(12).collect()
}

/// What a page's policy calls a style or a script that it lets work: its SHA-256, in base 64.
fn source(text: &str) -> String {
    const SIGNS: &[u8; 64] = b"ABCDEFGHIJKLMNOPQRSTUVWXYZabcdefghijklmnopqrstuvwxyz0123456789+/";
    let digest = Sha256::digest(text);
    let mut source = "sha256-".to_string();
    for bytes in digest.chunks(3) {
        let bits = bytes.iter().chain(&[0, 0]).take(3).fold(0, |bits, &byte| bits << 8 | usize::from(byte));
        let signs = (0..4).map(|sign| if sign <= bytes.len() { char::from(SIGNS[bits >> (18 - 6 * sign) & 63]) } else { '=' });
        source.extend(signs);
    }
    source
}

#[cfg(test)]
mod tests {
    use super::*;

    #[test]
    fn text_is_escaped_for_elements_and_quotes() {
        assert_eq!(html("<a b=\"c\" d='e'>&amp;"), "&lt;a b=&quot;c&quot; d=&#39;e&#39;&gt;&amp;amp;");
    }

    #[test]
    fn a_source_is_named_by_its_digest() {
        // As the standard on content security policies prints it.
        assert_eq!(source("alert('Hello, world.');"), "sha256-qznLcsROx4GACP2dm0UCKCzCG+HiZ1guq6ZZDob/Tng=");
    }

    #[test]
    fn a_port_is_one_of_the_loopback_address() {
        assert_eq!(socket_address("8035").map(|address| address.to_string()), Ok("127.0.0.1:8035".to_string()));
        assert_eq!(socket_address("0.0.0.0:80").map(|address| address.to_string()), Ok("0.0.0.0:80".to_string()));
        assert!(socket_address("70000").is_err());
    }
}
