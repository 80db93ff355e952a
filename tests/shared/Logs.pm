# Reads what the prover says of a crate.
package Logs;
use strict;
use warnings;
use utf8;
use Edits qw(text_of);
use Exporter 'import';
our @EXPORT = qw(verdict_of own_errors fact_of is_of_form);

# Whether the crate is proved: `proved`, `not-proved`, or nothing where the prover gave no verdict. The crates below, where they are built first, have theirs above.
sub verdict_of {
    my ($log) = @_;
    my @verdicts = $log =~ /^logic=(proved|not-proved)\b/mg;
    return @verdicts ? $verdicts[-1] : '';
}

# The functions of a crate that call one another, each with the name of its cycle, `#[cycle(NAME)]`: they have one proof, whose goals begin with the function's name.
my %cycles;
sub cycles_of {
    my ($crate) = @_;
    $cycles{$crate} //= do {
        my $text = join '', map { text_of($_) } split /\n/, `find crates/$crate/src -name '*.rt'`;
        my %found = reverse $text =~ /^\s*#\[cycle\((\w+)\)\]\n(?:\s*#\[.*\]\n)*\s*(?:pub(?:\([a-z]+\))? )?fn (\w+)/mg;
        \%found;
    };
    return $cycles{$crate};
}

# The errors of one function's own proof: not those that only pass on that something else was not admitted. Of goals that were left to the search its line
# names each that was not found.
sub own_errors {
    my ($log, $crate, $function) = @_;
    my $cycles = cycles_of($crate);
    my $cycle = $cycles->{$function} // $function;
    my @others = grep { $_ ne $function && $cycles->{$_} eq $cycle } sort keys %$cycles;
    my @errors = $log =~ m{^(?:\./)?proofs/(?:\w+/)*(?:$function|\+$cycle)/\S+: error:(.*(?:\n  .*)*)$}mg;
    my ($left) = $log =~ /^fn ${crate}::(?:\w+::)*$function: no proof: .*?`search` did not prove (`[^;\n]*)/m;
    push @errors, map { " `$_`: `search` did not prove it" } ($left // '') =~ /`([^`]+)`/g;
    return grep {
        my $fact = fact_of($_);
        !/was not admitted|was not checked: / && !grep { index($fact, "$_-") == 0 } @others;
    } @errors;
}

# The fact at which an error stands: a goal of the function, or a lemma beside it.
sub fact_of {
    my ($error) = @_;
    return $error =~ /^ `([^`]+)`:/ ? $1 : '';
}

# Whether an error only says that the proof names what the changed code has no more, or that a loop's variables are not those of which its invariant speaks: that
# shows nothing of a fact.
sub is_of_form {
    my ($error) = @_;
    return $error =~ /has no `|has no field|is not in scope/ || fact_of($error) =~ /^invariant-/;
}

1;
