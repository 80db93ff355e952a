//! Heading 'Holds' and the readings of the calls.

mod common;

use common::{played, three_users};
use reference::tables::{free_rows, Role};

#[test]
fn tests_of_link_in_order() {
    three_users().unchanged(
        "20 link / /absent -> refused 10
         20 link / / -> refused 11
         20 link /new / -> refused 12
         20 link /in /absent -> refused 10
         20 link /in /in -> refused 11
         20 link /new /in -> refused 12",
    );
}

#[test]
fn absence_comes_before_seen() {
    let mut world = three_users();
    world.play("20 check /in/fox -> held 0");
    world.unchanged(
        "30 use /in/fox -> refused 10\n30 check /in/fox -> seen 0\n30 look /in/fox -> seen 0",
    );
}

#[test]
fn seen_takes_nothing_and_only_end_holds_make_it() {
    let mut world = three_users();
    world.play(
        "10 symlink /way in -> done 3
         10 create /in/fox -> done 4
         10 exec -> done 10
         20 check /way/fox -> held 4",
    );
    world.unchanged("30 check /way/fox -> seen 4\n30 use /way/fox -> seen 4");
    world.play("30 look /way -> held 3");
    assert_eq!(world.held().last(), Some(&(30, 1, "way".to_string(), Role::End)));
    world
        .play("20 look /way -> seen 3\n20 unlink /way -> refused 14\n30 unlink /way -> refused 14");
}

#[test]
fn fourteen_asks_for_another_user_not_another_process() {
    let mut world = three_users();
    world.play(
        "21 enter 500 -> done 21
         20 check /in/fox -> held 0
         21 create /in/fox -> done 3
         30 unlink /in/fox -> refused 14",
    );
    assert_eq!(world.holds(), 2);
    world.play("20 exit -> done 20\n30 unlink /in/fox -> refused 14\n21 exit -> done 21");
    world.play("30 unlink /in/fox -> done 3");
}

#[test]
fn thirteen_comes_before_fourteen_and_inside_holds_stop_rmdir() {
    let mut world = three_users();
    world.play(
        "10 create /in/fox -> done 3
         10 exec -> done 10
         20 check /in/fox -> held 3
         20 check /in/owl -> held 0
         30 rmdir /in -> refused 13
         10 unlink /in/fox -> done 3
         10 exec -> done 10
         30 rmdir /in -> refused 14
         20 rmdir /in -> done 2",
    );
    assert_eq!(world.held(), [(20, 1, "in".to_string(), Role::End)]);
}

#[test]
fn rmdir_by_root_drops_all_inside_and_others_on_the_end() {
    let mut world = three_users();
    world.play(
        "20 look /in -> held 2
         20 check /in/owl -> held 0
         30 check /in/fox -> held 0
         10 check /in/hen -> held 0
         10 rmdir /in -> done 2",
    );
    assert_eq!(world.held(), [(10, 1, "in".to_string(), Role::End)]);
}

#[test]
fn rmdir_by_a_user_drops_the_users_holds_inside() {
    let mut world = three_users();
    world.play(
        "20 check /in/owl -> held 0
         20 fork 21 -> done 21
         21 rmdir /in -> done 2",
    );
    assert_eq!(world.held(), [(21, 1, "in".to_string(), Role::End)]);
}

#[test]
fn root_check_drops_end_holds_of_others_only() {
    let mut world = three_users();
    world.play(
        "10 symlink /way in -> done 3
         10 exec -> done 10
         20 check /way/fox -> held 0
         30 look /way -> held 3
         10 look /way -> held 3",
    );
    let wanted = [
        (20, 1, "way".to_string(), Role::Element),
        (20, 2, "fox".to_string(), Role::End),
        (10, 1, "way".to_string(), Role::End),
    ];
    assert_eq!(world.held(), wanted);
    world.play("10 unlink /way -> done 3");
    let wanted = [(20, 2, "fox".to_string(), Role::End), (10, 1, "way".to_string(), Role::End)];
    assert_eq!(world.held(), wanted);
}

#[test]
fn root_is_not_stopped_and_drops_before_it_adds() {
    let mut world = three_users();
    world.play(
        "20 check /in/fox -> held 0\n20 check /in/owl -> held 0\n10 create /in/fox -> done 3",
    );
    let row = world.tables.holds[0].as_ref().map(|hold| hold.process);
    assert_eq!((row, world.holds()), (Some(10), 2));
    world.play("20 check /in/fox -> seen 3\n20 unlink /in/fox -> refused 14");
}

#[test]
fn roots_refused_calls_drop_nothing() {
    let mut world = three_users();
    world.play("20 check /in/fox -> held 0\n20 look /in -> held 2");
    world.unchanged(
        "10 use /in/fox -> refused 10
         10 unlink /in -> refused 12
         10 create /in -> refused 11
         10 unlink /in/fox -> refused 10
         10 link /in/fox /in -> refused 12",
    );
}

#[test]
fn roots_check_with_a_full_table() {
    let mut world = three_users();
    for number in 0..255 {
        world.play(&format!("20 check /n{number} -> held 0"));
    }
    world.play("20 look /in -> held 2");
    world.unchanged(
        "10 check /n0 -> refused 16\n10 rmdir /in -> refused 16\n30 check /n0 -> seen 0",
    );
    assert_eq!(free_rows(&world.tables.holds), 0);
}

#[test]
fn sixteen_counts_each_hold_once_and_only_what_lacks() {
    let mut world = three_users();
    world.play("10 symlink /top / -> done 3\n10 exec -> done 10\n20 look /top -> held 3");
    for number in 0..253 {
        world.play(&format!("20 check /n{number} -> held 0"));
    }
    world.play("20 check /top/top/top/n0 -> held 0\n20 check /top/top/n1 -> held 0");
    world.play("20 exec -> done 20");
    for number in 0..255 {
        world.play(&format!("20 check /n{number} -> held 0"));
    }
    world.unchanged("20 check /top/new -> refused 16").play("20 check /top/top/n0 -> held 0");
}

#[test]
fn fork_tests_in_order() {
    let mut world = three_users();
    world.play("20 check /a -> held 0\n20 check /b -> held 0");
    world.unchanged("99 fork 20 -> refused 4\n20 fork 20 -> refused 5\n20 fork 30 -> refused 5");
    for number in 100..161 {
        world.play(&format!("{number} enter 600 -> done {number}"));
    }
    world.unchanged("20 fork 30 -> refused 5\n20 fork 21 -> refused 6");
    for number in 0..253 {
        world.play(&format!("30 check /n{number} -> held 0"));
    }
    world.unchanged("20 fork 21 -> refused 6");
    world.play("160 exit -> done 160");
    world.unchanged("20 fork 21 -> refused 16\n20 fork 30 -> refused 5");
    world.play("30 exec -> done 30\n20 fork 21 -> done 21");
}

#[test]
fn fork_copies_holds_in_row_order_and_the_user() {
    let mut world = three_users();
    world.play(
        "30 check /x -> held 0
         20 check /a -> held 0
         30 check /y -> held 0
         20 check /b -> held 0
         30 exec -> done 30
         20 fork 21 -> done 21",
    );
    let wanted = [
        (21, 1, "a".to_string(), Role::End),
        (20, 1, "a".to_string(), Role::End),
        (21, 1, "b".to_string(), Role::End),
        (20, 1, "b".to_string(), Role::End),
    ];
    assert_eq!(world.held(), wanted);
    assert_eq!(world.tables.user(21), Some(500));
}

#[test]
fn link_holds_path_1_only_and_is_not_stopped_at_the_old_path() {
    let mut world = three_users();
    world.play(
        "20 create /old -> done 3
         30 link /new /old -> done 3
         10 link /third /old -> done 3",
    );
    let wanted = [
        (20, 1, "old".to_string(), Role::End),
        (30, 1, "new".to_string(), Role::End),
        (10, 1, "third".to_string(), Role::End),
    ];
    assert_eq!(world.held(), wanted);
    world.play("20 unlink /old -> done 3\n30 unlink /new -> done 3");
    assert_eq!(world.tables.node(3).map(|node| node.entries), Some(1));
    world.play("10 unlink /third -> done 3");
    assert_eq!(world.tables.node(3), None);
}

#[test]
fn removals_leave_an_end_hold_on_the_absence() {
    let mut world = three_users();
    world.play(
        "20 create /fox -> done 3
         20 exec -> done 20
         20 unlink /fox -> done 3
         30 create /fox -> refused 14
         30 check /fox -> seen 0
         20 rmdir /in -> done 2
         30 mkdir /in -> refused 14",
    );
    assert_eq!(world.holds(), 2);
}

#[test]
fn own_holds_survive_the_own_removal() {
    let mut world = three_users();
    world.play(
        "20 mkdir /d -> done 3
         20 symlink /d/way /in -> done 4
         20 exec -> done 20
         20 check /d/way/fox -> held 0
         20 unlink /d/way -> done 4",
    );
    assert!(world.held().contains(&(20, 3, "way".to_string(), Role::Element)));
    world.unchanged(
        "30 create /d/way -> refused 14
         30 rmdir /d -> refused 14
         30 check /d/way -> seen 0",
    );
}

#[test]
fn exec_and_exit_drop_the_callers_holds_only() {
    let mut world = three_users();
    world.play("20 check /a -> held 0\n20 fork 21 -> done 21\n20 exec -> done 20");
    assert_eq!(world.held(), [(21, 1, "a".to_string(), Role::End)]);
    world.play("21 exit -> done 21\n21 check /a -> refused 4\n21 exit -> refused 4");
    assert_eq!(world.holds(), 0);
}

#[test]
fn a_held_call_again_changes_nothing() {
    let mut world = three_users();
    world.play("10 symlink /way in -> done 3\n10 exec -> done 10\n20 check /way/fox -> held 0");
    world.unchanged("20 check /way/fox -> held 0\n20 look /way/fox -> held 0");
    world.play("20 check /in/owl -> held 0");
    assert_eq!(world.holds(), 3);
}

#[test]
fn wrong_kinds() {
    three_users().play(
        "20 create /f -> done 3
         20 symlink /l in -> done 4
         20 rmdir /f -> refused 12
         20 rmdir /l -> refused 12
         20 unlink /in -> refused 12
         20 rmdir /absent -> refused 10
         20 unlink /absent -> refused 10
         20 unlink /l -> done 4
         20 create /l -> done 4",
    );
}

#[test]
fn enter_as_root_is_accepted_from_anybody() {
    let mut world = played("7 enter 0 -> done 7\n65535 enter 65535 -> done 65535");
    world.play("7 enter 0 -> refused 5\n7 enter 9 -> refused 5\n7 mkdir /x -> done 2");
}

#[test]
fn three_comes_before_four_and_four_before_any_walk() {
    three_users().unchanged(
        "99 check bad -> refused 3
         99 check /absent/x -> refused 4
         99 exec -> refused 4
         99 symlink /x /bad/ -> refused 3",
    );
}

#[test]
fn fourteen_comes_before_fifteen() {
    let mut world = played("10 enter 0 -> done 10\n20 enter 500 -> done 20");
    world.play("10 create /f -> done 2\n30 enter 600 -> done 30");
    for number in 1..512 {
        world.play(&format!("10 link /n{number} /f -> done 2\n10 exec -> done 10"));
    }
    world.play("20 check /x -> held 0\n30 create /x -> refused 14\n30 link /x /f -> refused 14");
    world.play("30 create /y -> refused 15\n20 create /x -> refused 15");
}
