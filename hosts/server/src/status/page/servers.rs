//! The servers of a table: a row for each, with a link to its page.
use super::markup::{Markup, escape};
use crate::status::others::{Answer, Other};
use crate::status::report::Report;

/// The part of the page, which is empty if this server knows no others.
pub fn part(own: &Report, others: &[Other]) -> String {
    if others.is_empty() {
        return String::new();
    }
    let mut part = Markup::default();
    part.add(format_args!(
        "<h2>All servers</h2><div class=\"wide\"><table><thead><tr><th>status port</th><th>state</th>\
         <th>keys</th><th>epoch</th><th>rows</th><th>clients</th><th>waiting</th><th>alarms</th>\
         </tr></thead><tbody>"
    ));
    part.add(format_args!("<tr><td>this one</td>{}</tr>", cells_of(own)));
    for Other { url, answer } in others {
        let url = escape(url);
        part.add(format_args!(
            "<tr><td><a href=\"{url}\">{url}</a></td>{}</tr>",
            cells(answer.as_ref())
        ));
    }
    part.add(format_args!("</tbody></table></div>"));
    part.text()
}

fn cells(answer: Option<&Answer>) -> String {
    match answer {
        None => "<td colspan=\"7\" class=\"note\">has not answered yet</td>".to_string(),
        Some(Err(why)) => format!("<td colspan=\"7\" class=\"ended\">{}</td>", escape(why)),
        Some(Ok(report)) => cells_of(report),
    }
}

fn cells_of(report: &Report) -> String {
    let (class, state) = state(report);
    let state = format!("<td class=\"{class}\">{}</td>", escape(&state));
    let keys = escape(report.shard.as_deref().unwrap_or("all"));
    if report.role != "serves" {
        return format!("{state}<td colspan=\"6\"></td>");
    }
    let Report { epoch, rows, room, clients, waits, .. } = report;
    let alarms = report.alarms_total.saturating_add(report.store_alarms_total);
    format!(
        "{state}<td>{keys}</td><td>{epoch}</td><td>{rows} of {room}</td><td>{clients}</td>\
         <td>{waits}</td><td>{alarms}</td>"
    )
}

/// What the server does, and a class of the page for it.
fn state(report: &Report) -> (&'static str, String) {
    match report {
        Report { failure: Some(why), .. } => ("ended", format!("has failed: {why}")),
        Report { leader: Some(leader), .. } => {
            ("note", format!("stands by: the server at {leader} serves"))
        }
        Report { role, .. } if role != "serves" => ("note", role.clone()),
        Report { phase, .. } if phase == "serving" => ("serving", phase.clone()),
        Report { phase, .. } => ("recovering", phase.clone()),
    }
}

#[cfg(test)]
mod tests {
    use super::*;

    fn serving() -> Report {
        Report {
            role: "serves".into(),
            phase: "serving".into(),
            shard: Some("0..500@3".into()),
            epoch: 7,
            rows: 41,
            room: 65_536,
            clients: 5,
            ..Report::default()
        }
    }

    fn other(url: &str, answer: Option<Answer>) -> Other {
        Other { url: url.into(), answer }
    }

    #[test]
    fn a_server_without_others_has_no_such_part() {
        assert_eq!(part(&serving(), &[]), "");
    }

    #[test]
    fn each_server_has_a_row_with_a_link_and_its_state() {
        let stands_by = Report {
            role: "stands by".into(),
            leader: Some("10.0.0.1:7400".into()),
            ..Report::default()
        };
        let part = part(
            &serving(),
            &[
                other("http://10.0.0.2:7401/", Some(Ok(stands_by))),
                other("https://db3:7401/", Some(Err("gave no answer: <refused>".into()))),
                other("http://10.0.0.4:7401/", None),
            ],
        );
        for row in [
            "<tr><td>this one</td><td class=\"serving\">serving</td><td>0..500@3</td><td>7</td>\
             <td>41 of 65536</td><td>5</td><td>0</td><td>0</td></tr>",
            "<a href=\"http://10.0.0.2:7401/\">http://10.0.0.2:7401/</a></td>\
             <td class=\"note\">stands by: the server at 10.0.0.1:7400 serves</td>",
            "<td colspan=\"7\" class=\"ended\">gave no answer: &lt;refused&gt;</td>",
            "has not answered yet",
        ] {
            assert!(part.contains(row), "{row}: {part}");
        }
    }

    #[test]
    fn what_a_server_does_is_a_word() {
        let failed = Report { failure: Some("no disk".into()), ..serving() };
        let recovers = Report { phase: "recovering".into(), ..serving() };
        let starts = Report { role: "starts".into(), ..Report::default() };
        let states = [serving(), failed, recovers, starts].map(|report| state(&report));
        let expected = [
            ("serving", "serving"),
            ("ended", "has failed: no disk"),
            ("recovering", "recovering"),
            ("note", "starts"),
        ];
        assert_eq!(states, expected.map(|(class, word)| (class, word.to_string())));
    }
}
