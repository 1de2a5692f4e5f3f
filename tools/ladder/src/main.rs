//! Draws a session as a ladder, in SVG: the two sides, time downward, and each datagram's chunks.
//!
//!     ladder sessions/lost.lab > lost.svg
//!     ladder --datagrams sessions/lost.lab    each datagram in hex behind the moment at which it went out
//!
//! It carries the session out by the library. If the replies that are expected lie beside it, as `lost.out`, these have
//! to come. If none lie there, the standard error tells of each line that hands over a packet which is not there.
mod chunks;
mod drawing;
mod replay;
mod reply;
mod session;
mod story;
mod svg;

use drawing::Drawing;
use replay::Replay;
use sctp_assoc::Profile;
use std::path::Path;
use std::process::ExitCode;
use std::{env, fs};
use story::Happening;

const USAGE: &str = "usage: ladder [--datagrams] SESSION.lab";

fn main() -> ExitCode {
    let words: Vec<String> = env::args().skip(1).collect();
    let words: Vec<&str> = words.iter().map(String::as_str).collect();
    let shown = match words[..] {
        ["--datagrams", session] => story_of(session).map(|story| datagrams(&story)),
        [session] => story_of(session).map(|story| picture(session, &story)),
        _ => Err(USAGE.to_string()),
    };
    match shown {
        Ok(text) => print!("{text}"),
        Err(error) => {
            eprintln!("ladder: {error}");
            return ExitCode::FAILURE;
        }
    }
    ExitCode::SUCCESS
}

fn read(path: &Path) -> Result<String, String> {
    fs::read_to_string(path).map_err(|error| format!("{}: {error}", path.display()))
}

/// What happens in the session of a file.
fn story_of(session: &str) -> Result<Vec<Happening>, String> {
    let text = read(Path::new(session))?;
    let replies = Path::new(session).with_extension("out");
    let replies = if replies.exists() { Some(read(&replies)?) } else { None };
    let replies: Option<Vec<&str>> = replies.as_ref().map(|replies| replies.lines().collect());
    let expected = |i: usize| replies.as_ref().map(|replies| replies.get(i).copied().unwrap_or("nothing"));

    let (mut replay, begun) = begin(&text)?;
    for (i, line) in text.lines().enumerate().skip(begun) {
        let number = i + 1;
        let (side, step) = session::step_of(line).ok_or_else(|| format!("line {number}: bad step"))?;
        let reply = replay.carry_out(side, &step, expected(i));
        if let Some(wanted) = expected(i).filter(|wanted| !reply::is_expected(&reply, wanted)) {
            let drop = last_drop(&replay.story).map_or(String::new(), |words| format!("; before that {words}"));
            return Err(format!("line {number}: the reply is '{reply}', and '{wanted}' was expected{drop}"));
        }
        if reply == reply::NO_PACKET && expected(i).is_none() {
            eprintln!("ladder: line {number}: {reply}");
        }
    }
    Ok(replay.story)
}

/// Makes the two associations, by the rules of the port unless a line in front names others. Answers how many lines it
/// took for that.
fn begin(text: &str) -> Result<(Replay, usize), String> {
    let profile = text.lines().next().and_then(session::profile_of);
    let before = usize::from(profile.is_some());
    let number = before + 1;
    let line = text.lines().nth(before).unwrap_or_default();
    let beginning = session::beginning_of(line, profile.unwrap_or(Profile::Port));
    let beginning = beginning.ok_or_else(|| format!("line {number}: bad step"))?;
    Ok((Replay::new(beginning).map_err(|error| format!("line {number}: {error}"))?, number))
}

/// The last datagram that the library dropped, as each of its users wants it to; `./lab` drops none.
fn last_drop(story: &[Happening]) -> Option<String> {
    story.iter().rev().find_map(|happening| match happening {
        Happening::Came { side, number, dropped: Some(why) } => {
            Some(format!("{side:?} dropped packet {number} ({why}), which ./lab takes in"))
        }
        _ => None,
    })
}

fn picture(session: &str, story: &[Happening]) -> String {
    let name = Path::new(session).file_stem().unwrap_or_default().to_string_lossy();
    svg::svg(&format!("The session {name}"), &Drawing::of(story))
}

fn datagrams(story: &[Happening]) -> String {
    let (mut out, mut moment) = (String::new(), 0);
    for happening in story {
        match happening {
            Happening::Moment(millis) => moment = *millis,
            Happening::Sent { datagram, .. } => {
                let hex: String = datagram.iter().map(|byte| format!("{byte:02x}")).collect();
                out += &format!("{moment} {hex}\n");
            }
            _ => {}
        }
    }
    out
}

#[cfg(test)]
mod tests {
    use super::*;

    #[test]
    fn a_line_in_front_names_the_profile() {
        let lines = |text| begin(text).map(|(_, count)| count);
        assert_eq!(lines("client 1200 100 500\nstate A\n"), Ok(1));
        assert_eq!(lines("profile rfc\nclient 1200 100 500\nstate A\n"), Ok(2));
        assert_eq!(lines("profile port\nsnap 1200 100 500\n"), Ok(2));
        assert_eq!(lines("profile rfc\nprofile port\n"), Err("line 2: bad step".to_string()));
        assert_eq!(lines("profile\n"), Err("line 1: bad step".to_string()));
    }

    /// A session that is carried out twice replies the same, and gives out the same datagrams at the same moments.
    #[test]
    fn sessions_repeat_their_datagrams() {
        let folder = Path::new(env!("CARGO_MANIFEST_DIR")).join("../../sessions");
        let files = fs::read_dir(folder).unwrap().map(|file| file.unwrap().path());
        let sessions: Vec<_> = files.filter(|path| path.extension().is_some_and(|end| end == "lab")).collect();
        assert!(!sessions.is_empty());
        for session in &sessions {
            let session = session.to_str().unwrap();
            let [first, second] = [0, 1].map(|_run| datagrams(&story_of(session).unwrap()));
            assert_eq!(first, second, "{session}");
        }
    }
}
