//! Heading 'Errors that look right': each attack fails.

mod common;

use common::three_users;

#[test]
fn a_link_in_the_middle_is_guarded() {
    let mut world = three_users();
    world.play(
        "10 mkdir /out -> done 3
         10 create /in/fox -> done 4
         10 create /out/fox -> done 5
         10 symlink /way in -> done 6
         10 exec -> done 10
         20 check /way/fox -> held 4",
    );
    world.unchanged(
        "30 unlink /way -> refused 14
         30 symlink /way out -> refused 11
         30 rmdir /in -> refused 13
         20 use /way/fox -> held 4",
    );
    world.play("10 unlink /way -> done 6\n10 exec -> done 10\n30 symlink /way out -> done 6");
    world.play("20 use /way/fox -> held 5");
}

#[test]
fn an_absence_keeps_its_directory() {
    let mut world = three_users();
    world.play("20 check /in/fox -> held 0");
    world.unchanged(
        "30 rmdir /in -> refused 14
         30 mkdir /in -> refused 11
         30 create /in/fox -> refused 14
         20 check /in/fox -> held 0",
    );
    world.play(
        "10 rmdir /in -> done 2
         10 exec -> done 10",
    );
    assert_eq!(world.holds(), 0);
    world.play("30 mkdir /in -> done 2\n30 create /in/fox -> done 3\n20 check /in/fox -> seen 3");
}

#[test]
fn create_does_not_follow_a_dangling_last_link() {
    three_users().play(
        "30 symlink /in/fox /secret -> done 3
         30 exec -> done 30
         20 create /in/fox -> refused 11
         20 check /secret -> held 0
         20 check /in/fox -> held 0",
    );
}

#[test]
fn two_ways_reach_one_entry() {
    let mut world = three_users();
    world.play(
        "10 symlink /one in -> done 3
         10 symlink /two /in -> done 4
         10 exec -> done 10
         20 check /one/fox -> held 0",
    );
    world.unchanged(
        "30 create /two/fox -> refused 14
         30 create /in/fox -> refused 14
         30 check /two/fox -> seen 0
         30 check /in/fox -> seen 0",
    );
    world.play("20 create /two/fox -> done 5\n30 unlink /one/fox -> refused 14");
}
