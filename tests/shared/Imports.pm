# Reads the imports of .rt and .antt files: `use a::{b, c::d as e};` and `ghost use M.{a, ◌+◌};` of sources, `use M.{a, b as c}` and `use M as m` of antt.
package Imports;
use strict;
use warnings;
use utf8;
use Exporter 'import';
our @EXPORT = qw(imports_of);

# The parts of a text that commas keep apart, where no bracket is open.
sub listed {
    my ($text) = @_;
    my ($depth, @parts) = (0, '');
    for my $sign (split //, $text) {
        $depth += $sign eq '{' ? 1 : $sign eq '}' ? -1 : 0;
        if ($sign eq ',' && $depth == 0) { push @parts, '' }
        else { $parts[-1] .= $sign }
    }
    return grep { $_ ne '' } map { s/^\s+|\s+$//gr } @parts;
}

# What one tree of a `use` brings: each as its whole path and the name that it has here.
sub brought {
    my ($before, $tree) = @_;
    return map { brought("$before$1", $_) } listed($2) if $tree =~ /^(.*?(?:::|\.))\{(.*)\}$/s;
    my ($path, $name) = $tree =~ /^(.*\S)\s+as\s+(\S+)$/s ? ($1, $2) : ($tree, undef);
    $name //= $path eq 'self' ? $before =~ s/(?:::|\.)$//r =~ s/^.*(?:::|\.)//sr : $path =~ s/^.*::|^.*\.(?=.)//sr;
    return ["$before$path", $name];
}

# The imports of a text that are not passed on by `pub use`, each as path and name, and the text without any.
sub imports_of {
    my ($text, $is_source) = @_;
    my @found;
    my $end = $is_source ? qr/;/ : qr/(?=\n|\z)/;
    $text =~ s/^[ \t]*((?:pub(?:\([a-z]+\))? )?)(?:ghost )?((?:pub )?)use\s+([^\s{;]+(?:\{[^;}]*(?:\{[^}]*\}[^;}]*)*\})?(?:[ \t]+as[ \t]+[^\s;]+)?)[ \t]*$end/push @found, brought('', $3) unless "$1$2" ne ''; ''/mge;
    return (\@found, $text);
}

1;
