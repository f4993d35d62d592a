//! Answers: what the library says, as a line of `key=value` fields.

use crate::request::{self, Malformed, Request};
use oracle::leaves::{self, Header, Kind};
use oracle::{
    Finishing, Level, Message, Outcome, Palette, Plane, Profile, Props, Reading, Record,
    Reordering, Step, Writing, WritingRequest,
};
use std::fmt::Display;
use std::io::{Result, Write};

pub enum Answer {
    Read(Box<Reading>),
    Finish { read: Outcome, finishing: Finishing },
    Order(Reordering),
    Write(Writing),
    Header(std::result::Result<Header, String>),
    Kind(Kind),
    Content(u32),
    Head(Vec<u8>),
    Number(Option<u32>),
    Bytes(Option<Vec<u8>>),
}

pub fn run(request: &Request) -> std::result::Result<Answer, Malformed> {
    Ok(match request {
        Request::Read { file } => Answer::Read(Box::new(oracle::read(file))),
        Request::Finish {
            file,
            ignore,
            components,
            samples,
        } => {
            let reading = oracle::read(file);
            let finishing = oracle::finish(&reading, components, samples, *ignore);
            let finishing = finishing.map_err(|unaskable| {
                let component = unaskable.component;
                Malformed::new(format!(
                    "component {component} has samples outside the list"
                ))
            })?;
            Answer::Finish {
                read: reading.outcome,
                finishing,
            }
        }
        Request::Order {
            components,
            definitions,
        } => Answer::Order(oracle::reorder(components, definitions)),
        Request::Write(request) => Answer::Write(oracle::write(&writing_request(request))),
        Request::Header { bytes, max } => Answer::Header(leaves::read_header(bytes, *max)),
        Request::Kind { number } => Answer::Kind(leaves::kind(*number)),
        Request::Content { length, header } => {
            Answer::Content(leaves::content_length(*length, *header))
        }
        Request::Head { length, kind } => Answer::Head(leaves::write_header(*length, *kind)),
        Request::Number { bytes } => Answer::Number(leaves::read_bytes(bytes)),
        Request::Bytes { value, count } => Answer::Bytes(leaves::write_bytes(*value, *count)),
    })
}

fn writing_request(request: &request::Write) -> WritingRequest<'_> {
    WritingRequest {
        components: &request.components,
        x0: request.x0,
        y0: request.y0,
        x1: request.x1,
        y1: request.y1,
        color_space: request.color_space,
        profile: &request.profile,
        store_profile: request.store_profile,
        codestream_length: request.codestream_length,
    }
}

pub fn print(answer: &Answer, out: &mut impl Write) -> Result<()> {
    match answer {
        Answer::Read(reading) => print_reading(reading, out),
        Answer::Finish { read, finishing } => print_finishing(*read, finishing, out),
        Answer::Order(reordering) => print_reordering(reordering, out),
        Answer::Write(writing) => print_writing(writing, out),
        Answer::Header(header) => print_header(header, out),
        Answer::Kind(kind) => {
            write!(out, "outcome=success name={} number=", kind.name)?;
            print_option(kind.number, out)?;
            let (file, image) = (kind.is_file_header, kind.is_image_header);
            write!(
                out,
                " file_header={} image_header={}",
                u8::from(file),
                u8::from(image)
            )
        }
        Answer::Content(length) => write!(out, "outcome=success content={length}"),
        Answer::Head(bytes) => print_bytes("outcome=success bytes=", bytes, out),
        Answer::Number(None) | Answer::Bytes(None) => write!(out, "outcome=panic"),
        Answer::Number(Some(number)) => write!(out, "outcome=success number={number}"),
        Answer::Bytes(Some(bytes)) => print_bytes("outcome=success bytes=", bytes, out),
    }
}

fn print_reading(reading: &Reading, out: &mut impl Write) -> Result<()> {
    print_outcome(reading.outcome, out)?;
    write!(out, " codestream=")?;
    print_option(reading.codestream, out)?;
    write!(out, " cause=")?;
    print_option(reading.cause, out)?;
    write!(out, " place=")?;
    print_option(reading.place, out)?;
    write!(out, " tell={}", reading.tell)?;
    print_record(&reading.record, out)?;
    print_messages(&reading.messages, out)
}

fn print_record(record: &Record, out: &mut impl Write) -> Result<()> {
    for (key, number) in [
        ("w", record.w),
        ("h", record.h),
        ("bpc", record.bpc),
        ("C", record.c),
        ("UnkC", record.unk_c),
        ("IPR", record.ipr),
        ("meth", record.meth),
        ("precedence", record.precedence),
        ("approx", record.approx),
        ("enumcs", record.enumcs),
        ("brand", record.brand),
        ("minversion", record.minversion),
        ("jp2_state", record.jp2_state),
        ("jp2_img_state", record.jp2_img_state),
        ("has_jp2h", record.has_jp2h.into()),
        ("has_ihdr", record.has_ihdr.into()),
        ("jp2_has_colr", record.jp2_has_colr.into()),
    ] {
        write!(out, " {key}={number}")?;
    }
    match &record.icc_profile {
        Profile::None => write!(out, " icc_profile=none")?,
        Profile::Icc(bytes) => print_bytes(" icc_profile=icc:", bytes, out)?,
        Profile::CieLab(numbers) => print_list(" icc_profile=lab:", ",", numbers, out)?,
    }
    print_list(" cl=", ",", &record.cl, out)?;
    print_list(" comps=", ",", &record.comps, out)?;
    print_palette(record.jp2_pclr.as_ref(), out)?;
    match &record.jp2_cdef {
        None => write!(out, " jp2_cdef=none"),
        Some(cdef) => {
            let cdef = cdef
                .iter()
                .map(|info| format!("{},{},{}", info.cn, info.typ, info.asoc));
            print_list(" jp2_cdef=", ";", cdef, out)
        }
    }
}

fn print_palette(palette: Option<&Palette>, out: &mut impl Write) -> Result<()> {
    let Some(palette) = palette else {
        return write!(out, " jp2_pclr=none");
    };
    write!(
        out,
        " jp2_pclr={},{}",
        palette.nr_entries, palette.nr_channels
    )?;
    print_list(" sizes=", ",", &palette.sizes, out)?;
    print_list(" signs=", ",", &palette.signs, out)?;
    print_list(" entries=", ",", &palette.entries, out)?;
    let cmap = palette
        .cmap
        .iter()
        .map(|map| format!("{},{},{}", map.cmp, map.mtyp, map.pcol));
    print_list(" cmap=", ";", cmap, out)
}

fn print_finishing(read: Outcome, finishing: &Finishing, out: &mut impl Write) -> Result<()> {
    print_outcome(finishing.outcome, out)?;
    write!(out, " cause=")?;
    print_option(finishing.cause, out)?;
    write!(out, " corrected={}", u8::from(finishing.corrected))?;
    write!(out, " read={}", outcome_name(read))?;
    write!(out, " count={}", finishing.planes.len())?;
    for (index, plane) in finishing.planes.iter().enumerate() {
        print_plane(index, plane, out)?;
    }
    print_messages(&finishing.messages, out)
}

fn print_reordering(reordering: &Reordering, out: &mut impl Write) -> Result<()> {
    print_outcome(reordering.outcome, out)?;
    write!(out, " count={}", reordering.components.len())?;
    for (index, props) in reordering.components.iter().enumerate() {
        print_props(index, props, out)?;
    }
    print_messages(&reordering.messages, out)
}

fn print_plane(index: usize, plane: &Plane, out: &mut impl Write) -> Result<()> {
    print_props(index, &plane.props, out)?;
    match &plane.samples {
        None => write!(out, " plane{index}=none"),
        Some(samples) => print_list(&format!(" plane{index}="), ",", samples, out),
    }
}

fn print_props(index: usize, props: &Props, out: &mut impl Write) -> Result<()> {
    let numbers = [
        props.dx,
        props.dy,
        props.w,
        props.h,
        props.x0,
        props.y0,
        props.prec,
        props.bpp,
        props.sgnd,
        props.resno_decoded,
        props.factor,
        props.alpha.into(),
    ];
    print_list(&format!(" comp{index}="), ",", numbers, out)
}

fn print_writing(writing: &Writing, out: &mut impl Write) -> Result<()> {
    print_outcome(writing.outcome, out)?;
    let step = match writing.step {
        Step::Setup => "setup",
        Step::Validation => "validation",
        Step::Jp => "jp",
        Step::Ftyp => "ftyp",
        Step::Jp2h => "jp2h",
        Step::Jp2c => "jp2c",
    };
    write!(out, " step={step}")?;
    print_bytes(" bytes=", &writing.bytes, out)?;
    print_messages(&writing.messages, out)
}

fn print_header(header: &std::result::Result<Header, String>, out: &mut impl Write) -> Result<()> {
    match header {
        Ok(header) => {
            write!(
                out,
                "outcome=success length={} kind={}",
                header.length, header.kind
            )?;
            write!(
                out,
                " header_length={} used={}",
                header.header_length, header.used
            )
        }
        Err(text) => {
            write!(out, "outcome=failure why=")?;
            print_text(text, out)
        }
    }
}

fn outcome_name(outcome: Outcome) -> &'static str {
    match outcome {
        Outcome::Success => "success",
        Outcome::Failure => "failure",
        Outcome::Panic => "panic",
    }
}

fn print_outcome(outcome: Outcome, out: &mut impl Write) -> Result<()> {
    write!(out, "outcome={}", outcome_name(outcome))
}

fn print_option(number: Option<impl Display>, out: &mut impl Write) -> Result<()> {
    match number {
        None => write!(out, "none"),
        Some(number) => write!(out, "{number}"),
    }
}

fn print_list(
    key: &str,
    between: &str,
    items: impl IntoIterator<Item = impl Display>,
    out: &mut impl Write,
) -> Result<()> {
    write!(out, "{key}")?;
    for (index, item) in items.into_iter().enumerate() {
        let between = if index == 0 { "" } else { between };
        write!(out, "{between}{item}")?;
    }
    Ok(())
}

/// Two hexadecimal digits a byte, or `-` for no bytes, as in requests.
fn print_bytes(key: &str, bytes: &[u8], out: &mut impl Write) -> Result<()> {
    write!(out, "{key}")?;
    if bytes.is_empty() {
        return write!(out, "-");
    }
    bytes.iter().try_for_each(|byte| write!(out, "{byte:02x}"))
}

fn print_messages(messages: &[Message], out: &mut impl Write) -> Result<()> {
    write!(out, " messages=")?;
    for (index, message) in messages.iter().enumerate() {
        let between = if index == 0 { "" } else { ";" };
        let level = match message.level {
            Level::Error => "error",
            Level::Warning => "warning",
            Level::Info => "info",
            Level::Panic => "panic",
        };
        write!(out, "{between}{level}:")?;
        print_text(&message.text, out)?;
    }
    Ok(())
}

/// A text as one word: all but letters, digits and `.,:_-` as `%` and two hexadecimal digits.
pub fn print_text(text: &str, out: &mut impl Write) -> Result<()> {
    text.bytes().try_for_each(|byte| match byte {
        b'a'..=b'z' | b'A'..=b'Z' | b'0'..=b'9' | b'.' | b',' | b':' | b'_' | b'-' => {
            out.write_all(&[byte])
        }
        _ => write!(out, "%{byte:02X}"),
    })
}
