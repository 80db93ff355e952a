# Tries changed crates in copies of the repository outside it: what `rt check` says of a crate is read there, and nothing of the repository moves.
package Tries;
use strict;
use warnings;
use utf8;
use Exporter 'import';
use File::Temp qw(tempdir);
use Edits qw(text_of);
our @EXPORT = qw(crates_below room said_of);

# The crates of crates.txt, each with the crates of the repository on which it rests, directly or by others, and itself last.
sub crates_below {
    my (%deps, %below, @order);
    for my $line (split /\n/, text_of('crates.txt')) {
        next unless $line =~ /^(\w+)[^:#]*:(.*)/;
        push @order, $1;
        $deps{$1} = [split ' ', $2];
    }
    my $found;
    $found = sub {
        my ($crate) = @_;
        my %seen;
        return grep { !$seen{$_}++ } (map { $found->($_) } grep { $deps{$_} } @{ $deps{$crate} }), $crate;
    };
    $below{$_} = [$found->($_)] for @order;
    return \%below;
}

# A copy of what checks read, in a folder that is removed at the end.
sub room {
    my $room = tempdir('tickbutton-XXXX', TMPDIR => 1, CLEANUP => 1);
    my @listed = sort keys %{ crates_below() };
    for my $crate (@listed) {
        my $parts = join ' ', grep { -d } map { "crates/$crate/$_" } 'src', 'specs', 'proofs';
        system("mkdir -p '$room/crates/$crate' && cp -r $parts '$room/crates/$crate/'") == 0 or die "$crate could not be copied\n";
    }
    system("cp crates.txt '$room/'; [ ! -f HANDLES ] || cp HANDLES '$room/'") == 0 or die "crates.txt could not be copied\n";
    return $room;
}

# What `rt check` says of a crate of the room. It begins with what earlier checks on this machine kept.
sub said_of {
    my ($room, $crate) = @_;
    open(my $in, '-|:encoding(UTF-8)', "cd '$room/crates/$crate' && rt check 2>&1") or die "rt: $!";
    local $/;
    my $said = <$in>;
    close $in;
    return $said;
}

1;
