//! Heading 'Walking a path', with the readings of its edges.

mod common;

use common::{three_users, World};
use reference::tables::Role;
use reference::walk;

/// Root's world of links; root has no hold left.
fn links() -> World {
    let mut world = three_users();
    world.play(
        "10 create /file -> done 3
         10 create /in/fox -> done 4
         10 symlink /tofile file -> done 5
         10 symlink /toabsent absent -> done 6
         10 symlink /top / -> done 7
         10 symlink /toin /in -> done 8
         10 symlink /in/rel fox -> done 9
         10 symlink /ring ring -> done 10
         10 exec -> done 10",
    );
    world
}

#[test]
fn middle_links_to_file_and_absence() {
    links().unchanged(
        "20 check /tofile/x -> refused 9
         20 check /toabsent/x -> refused 8
         20 check /file/x -> refused 9
         20 check /absent/x -> refused 8
         20 use /absent -> refused 10
         20 create /tofile/x -> refused 9
         20 check /in/fox/x/y -> refused 9",
    );
}

#[test]
fn last_links_to_file_and_absence() {
    let mut world = links();
    world.play(
        "20 check /tofile -> held 3\n20 check /toabsent -> held 0\n20 look /tofile -> held 5",
    );
    let held = world.held();
    let wanted = [
        (20, 1, "tofile".to_string(), Role::Element),
        (20, 1, "file".to_string(), Role::End),
        (20, 1, "toabsent".to_string(), Role::Element),
        (20, 1, "absent".to_string(), Role::End),
        (20, 1, "tofile".to_string(), Role::End),
    ];
    assert_eq!(held, wanted);
}

#[test]
fn target_of_a_slash() {
    let mut world = links();
    world.play("20 check /top -> held 1");
    assert_eq!(world.held(), [(20, 1, "top".to_string(), Role::Element)]);
    world.play(
        "30 check /top -> held 1
         30 look /top -> held 7
         20 look /top -> seen 7
         20 check /top -> held 1
         20 use /top/top/file -> held 3
         30 create /top/new -> done 11",
    );
}

#[test]
fn the_goal_of_a_walk() {
    let world = links();
    let goal = walk(&world.tables, b"/top/toin/rel", true).expect("a goal");
    let elements = vec![(1, b"top".to_vec()), (1, b"toin".to_vec()), (2, b"rel".to_vec())];
    assert_eq!((goal.end, goal.node), (Some((2, b"fox".to_vec())), 4));
    assert_eq!(goal.elements, elements);
    let goal = walk(&world.tables, b"/top", true).expect("a goal");
    assert_eq!((goal.end, goal.node), (None, 1));
    let goal = walk(&world.tables, b"/toin/nothing", true).expect("a goal");
    assert_eq!((goal.end, goal.node), (Some((2, b"nothing".to_vec())), 0));
    assert_eq!(walk(&world.tables, b"/ring", true), Err(7));
    assert_eq!(walk(&world.tables, b"/ring/x", false), Err(7));
    assert_eq!(walk(&world.tables, b"/ring", false).map(|goal| goal.node), Ok(10));
}

#[test]
fn relative_targets_start_at_the_entrys_directory() {
    links().play(
        "10 mkdir /out -> done 11
         10 create /out/fox -> done 12
         10 link /out/rel /in/rel -> done 9
         10 exec -> done 10
         20 check /in/rel -> held 4
         20 check /out/rel -> held 12
         20 check /toin/rel -> held 4",
    );
}

#[test]
fn a_link_followed_twice_is_one_hold_but_counts_twice() {
    let mut world = links();
    world.play("20 check /top/top/top/top/top/top/top/top/file -> held 3");
    assert_eq!(world.holds(), 2);
    world.unchanged("20 check /top/top/top/top/top/top/top/top/top/file -> refused 7");
    let goal = walk(&world.tables, b"/top/top/file", true).expect("a goal");
    assert_eq!(goal.elements, vec![(1, b"top".to_vec()), (1, b"top".to_vec())]);
}

#[test]
fn an_entry_that_is_element_and_end_has_two_holds() {
    let mut world = links();
    world.play("20 look /top/top -> held 7");
    let wanted = [(20, 1, "top".to_string(), Role::Element), (20, 1, "top".to_string(), Role::End)];
    assert_eq!(world.held(), wanted);
}

#[test]
fn a_last_link_not_followed_is_no_ninth() {
    links().play(
        "20 look /top/top/top/top/top/top/top/top/top -> held 7
         20 check /top/top/top/top/top/top/top/top/top -> refused 7
         20 unlink /top/top/top/top/top/top/top/top/tofile -> done 5",
    );
}

#[test]
fn both_walks_of_link_have_eight_each() {
    let eight = "/top".repeat(8);
    let nine = "/top".repeat(9);
    links().play(&format!(
        "20 link {nine}/new {nine}/file -> refused 7
         20 link {eight}/new {nine}/file -> refused 7
         20 link {eight}/new {eight}/file -> done 3"
    ));
}

#[test]
fn links_old_path_does_not_follow_its_last_link() {
    let mut world = links();
    world.play("20 link /hard /tofile -> done 5\n20 link /dangling /toabsent -> done 6");
    assert_eq!(world.tables.node(5).map(|node| node.entries), Some(2));
    world.play("20 check /hard -> held 3");
}

#[test]
fn symlinks_second_path_is_not_walked() {
    links().play(
        "20 symlink /a /absent/more/still -> done 11
         20 symlink /b file/x -> done 12
         20 symlink /c ring -> done 13
         20 check /a -> refused 8
         20 check /b -> refused 9
         20 check /c -> refused 7",
    );
}

#[test]
fn refusals_come_as_the_walk_meets_them() {
    links().unchanged(
        "20 check /ring/absent/x -> refused 7
         20 check /absent/ring/x -> refused 8
         20 check /file/ring/x -> refused 9
         20 link /absent/x /file/x -> refused 8
         20 link /file/x /absent/x -> refused 9
         20 link /file /ring/x -> refused 7",
    );
}
