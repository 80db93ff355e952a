# Reads `.edit` files: a sentence or more, and changes of files of one crate, each the line that stands there (`old:`) and the line instead (`new:`).
package Edits;
use strict;
use warnings;
use utf8;
use Exporter 'import';
our @EXPORT = qw(text_of changes_of functions_of changed);

# The text of a file, or nothing where there is none.
sub text_of {
    my ($file) = @_;
    open(my $in, '<:encoding(UTF-8)', $file) or return;
    local $/;
    return scalar <$in>;
}

# The changes of an edit in their order, each as file, old text and new text.
sub changes_of {
    my ($edit) = @_;
    my ($file, $old, @changes);
    for my $line (split /\n/, text_of($edit) // die "$edit: $!\n") {
        if ($line =~ /^file: (.*)/) { $file = $1 }
        elsif ($line =~ /^old: (.*)/) { $old = $1 }
        elsif ($line =~ /^new: ?(.*)/) { push @changes, [$file, $old, $1] }
    }
    return @changes;
}

# The functions whose answer an edit makes wrong: each has a line `fn FUNCTION: what is wrong.`
sub functions_of {
    my ($edit) = @_;
    return text_of($edit) =~ /^fn (\w+): /mg;
}

# What an edit makes of the files of a crate's folder, by name, and what of it does not fit: each old text must stand just once in its file
# as the changes before it left it.
sub changed {
    my ($edit, $crate) = @_;
    my (%text, @faults);
    for my $change (changes_of($edit)) {
        my ($file, $old, $new) = @$change;
        $text{$file} //= text_of("$crate/$file");
        if (!defined $text{$file}) { push @faults, "$crate/$file: there is no such file"; next }
        my $times = () = $text{$file} =~ /\Q$old\E/g;
        push @faults, "$crate/$file: " . ($times ? "stands $times times, not once" : 'does not stand there') . ": $old" if $times != 1;
        $text{$file} =~ s/\Q$old\E/$new/;
    }
    return (\%text, @faults);
}

1;
