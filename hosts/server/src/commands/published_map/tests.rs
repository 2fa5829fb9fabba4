use super::*;
use krl::{Servers, Shard};
use std::fs;
use tempfile::TempDir;

fn servers(port: u16) -> Servers {
    format!("127.0.0.1:{port}").parse().unwrap()
}

fn split(map: &ShardMap) -> Done<ShardMap> {
    Ok(map.split(50, servers(2))?)
}

/// A folder with a map of two shards, of version 3, and the file of that.
fn with_map() -> (TempDir, PathBuf, ShardMap) {
    let folder = tempfile::tempdir().unwrap();
    let mut shards = vec![Shard::new(0, servers(1)), Shard::new(100, servers(3))];
    shards[1].since = NonZeroU64::new(2);
    let map = ShardMap::new(shards).unwrap().with_version(NonZeroU64::new(3).unwrap());
    let path = folder.path().join("map.toml");
    fs::write(&path, map.to_toml()).unwrap();
    (folder, path, map)
}

/// What the map becomes by a change of the first shard, or of the second.
fn change(path: &Path, publish: Option<&str>, words: &str) -> Done<PublishedMap> {
    let file = MapFile::lock(path, publish, words.into())?;
    match words {
        "split" => file.change(&[50], split),
        "cut" => file.change(&[70], |map| Ok(map.split(70, servers(5))?)),
        _ => file.change(&[100], |map| Ok(map.with_servers(100, servers(4))?)),
    }
}

/// The same, with the next map in the file.
fn published(path: &Path, publish: Option<&str>, words: &str) -> PublishedMap {
    let made = change(path, publish, words).unwrap();
    made.begin().unwrap();
    made.publish().unwrap();
    made
}

fn refused(made: Done<PublishedMap>) -> String {
    made.err().unwrap().to_string()
}

fn bounds(path: &Path) -> Vec<String> {
    let map = ShardMap::from_file(path).unwrap();
    (0..map.shards().len()).map(|shard| map.bounds_of(shard).unwrap().to_string()).collect()
}

#[test]
fn the_next_map_is_published_once_however_often_it_is_asked_for() {
    let (folder, path, first) = with_map();
    let counted = folder.path().join("counted");
    let count = format!("cat \"$KRL_MAP\" >> {}", counted.display());
    let expected = split(&first).unwrap();
    for times in 1..3 {
        let published = published(&path, Some(&count), "split");
        assert_eq!((&published.change.before, &published.change.next), (&first, &expected));
        assert_eq!(ShardMap::from_file(&path).unwrap(), expected);
        assert_eq!(fs::read_to_string(&counted).unwrap(), expected.to_toml().repeat(times));
    }
}

#[test]
fn a_map_that_cannot_be_published_stays_what_it_was() {
    let (_folder, path, first) = with_map();
    let mut published = change(&path, Some("exit 3"), "split").unwrap();
    published.begin().unwrap();
    let refused = published.publish().unwrap_err();
    assert!(refused.to_string().contains("'exit 3' has ended"), "{refused}");
    assert_eq!(ShardMap::from_file(&path).unwrap(), first);
    assert!(published.take_back().is_err());
    drop(published);
    // Somebody may have the maps of versions 4 and 5.
    let published = self::published(&path, None, "split");
    assert_eq!(published.change.next.version().unwrap().get(), 6);
}

#[test]
fn what_is_taken_back_is_known_by_its_own_versions_and_may_be_asked_for_again() {
    let (_folder, path, first) = with_map();
    let mut published = published(&path, None, "split");
    assert_eq!(published.take_back().unwrap().get(), 5);
    published.forget().unwrap();
    drop(published);
    let now = ShardMap::from_file(&path).unwrap();
    for shard in 0..2 {
        assert_eq!(now.bounds_of(shard), first.bounds_of(shard));
    }
    let again = change(&path, None, "split").unwrap();
    assert_eq!((&again.change.before, again.change.next.version().unwrap().get()), (&now, 6));
    assert_eq!(again.change.next.bounds_of(1).unwrap().to_string(), "50..100@6");
}

#[test]
fn a_change_that_was_cut_off_is_continued_whatever_ran_since() {
    let (_folder, path, first) = with_map();
    drop(published(&path, None, "split"));
    let mut other = published(&path, None, "move");
    other.end().unwrap();
    drop(other);
    let why = refused(change(&path, None, "cut"));
    assert!(why.contains("repeat 'krl-server reshard split'"), "{why}");
    let mut continued = change(&path, None, "split").unwrap();
    assert_eq!(
        (&continued.change.before, &continued.change.next),
        (&first, &split(&first).unwrap())
    );
    continued.publish().unwrap();
    assert_eq!(continued.end().unwrap().get(), 5);
    drop(continued);
    assert_eq!(bounds(&path), ["0..50@4", "50..100@4", "100..@5"]);
    // It has ended.
    assert_eq!(change(&path, None, "cut").unwrap().change.next.version().unwrap().get(), 6);
    let undone = MapFile::lock(&path, None, "split".into()).unwrap().begun();
    assert!(refused(undone).contains("nothing is to be taken back"));
}

#[test]
fn a_server_that_may_serve_again_gets_no_other_shard() {
    let (_folder, path, _) = with_map();
    drop(published(&path, None, "move"));
    let at_the_old_place = |map: &ShardMap| {
        next_map::refuse_server_of_map(map, &servers(3))?;
        Ok(map.split(50, servers(3))?)
    };
    let cut = || MapFile::lock(&path, None, "cut".into()).unwrap().change(&[50], at_the_old_place);
    assert!(refused(cut()).contains("the server 127.0.0.1:3 has shard 1 in the map"));
    let mut ended = change(&path, None, "move").unwrap();
    ended.end().unwrap();
    drop(ended);
    assert!(cut().is_ok());
}

#[test]
fn only_ones_own_change_is_taken_back() {
    let (_folder, path, _) = with_map();
    drop(published(&path, None, "split"));
    drop(published(&path, None, "move"));
    let mut undone = MapFile::lock(&path, None, "split".into()).unwrap().begun().unwrap();
    assert_eq!(undone.take_back().unwrap().get(), 6);
    drop(undone);
    assert_eq!(bounds(&path), ["0..100@3", "100..@5"]);
    // It was cut off before all servers had started.
    let mut again = MapFile::lock(&path, None, "split".into()).unwrap().begun().unwrap();
    assert_eq!(again.take_back().unwrap().get(), 7);
    again.forget().unwrap();
    drop(again);
    assert_eq!(bounds(&path), ["0..100@3", "100..@5"]);
    // The other one is pending still.
    assert!(MapFile::lock(&path, None, "move".into()).unwrap().begun().is_ok());
}

#[test]
fn a_change_of_which_the_map_has_nothing_is_begun_again_by_a_later_version() {
    let (_folder, path, first) = with_map();
    drop(published(&path, None, "split"));
    // It was noted, and the next map was lost with the power, or was cut off.
    fs::write(&path, first.to_toml()).unwrap();
    let again = change(&path, None, "split").unwrap();
    assert_eq!(&again.change.next, &split(&first).unwrap());
    drop(again);
    let other = published(&path, None, "cut");
    assert_eq!(other.change.next.version().unwrap().get(), 5);
    drop(other);
    fs::write(&path, first.to_toml()).unwrap();
    let again = change(&path, None, "split").unwrap();
    assert_eq!(again.change.next.bounds_of(1).unwrap().to_string(), "50..100@6");
}

#[test]
fn a_map_that_comes_late_from_its_home_has_its_note() {
    let (_folder, path, first) = with_map();
    // The home has it, and the file lacks it.
    let cut_off = change(&path, Some("false"), "split").unwrap();
    cut_off.begin().unwrap();
    assert!(cut_off.publish().is_err());
    drop(cut_off);
    for words in ["move", "cut", "split"] {
        let mut refused = change(&path, Some("false"), words).unwrap();
        refused.begin().unwrap();
        assert!(refused.publish().is_err() && refused.take_back().is_err());
    }
    fs::write(&path, split(&first).unwrap().to_toml()).unwrap();
    let continued = change(&path, None, "split").unwrap();
    assert_eq!(
        (&continued.change.before, &continued.change.next),
        (&first, &split(&first).unwrap())
    );
    drop(continued);
    assert!(refused(change(&path, None, "cut")).contains("repeat 'krl-server reshard split'"));
    // By now the file has a later map than all that were given away.
    let mut ended = change(&path, None, "split").unwrap();
    ended.take_back().unwrap();
    ended.forget().unwrap();
    drop(ended);
    drop(published(&path, None, "move"));
    let undone = MapFile::lock(&path, None, "cut".into()).unwrap().begun();
    assert!(refused(undone).contains("nothing is to be taken back"));
}

#[test]
fn one_command_at_a_time_changes_a_map_whatever_its_name_is() {
    let (folder, path, _) = with_map();
    let link = folder.path().join("link.toml");
    std::os::unix::fs::symlink("map.toml", &link).unwrap();
    let published = change(&link, None, "split").unwrap();
    let why = refused(change(&path, None, "move"));
    assert!(why.contains("map.toml is changed already, by process "), "{why}");
    assert!(why.ends_with(", reshard split"), "{why}");
    published.publish().unwrap();
    assert!(link.is_symlink());
    assert_eq!(bounds(&path), ["0..50@4", "50..100@4", "100..@2"]);
}

#[test]
fn a_map_that_somebody_else_has_replaced_stays() {
    let (folder, path, first) = with_map();
    let other = first.with_servers(100, servers(9)).unwrap();
    let theirs = folder.path().join("theirs.toml");
    fs::write(&theirs, other.to_toml()).unwrap();
    let publish = format!("cp '{}' '{}'", theirs.display(), path.display());
    let published = change(&path, Some(&publish), "split").unwrap();
    let why = published.publish().unwrap_err().to_string();
    assert!(why.contains("somebody else has changed"), "{why}");
    assert_eq!(ShardMap::from_file(&path).unwrap(), other);
}
