# Takes a file of crates/ apart into its pieces, for tests/what-moved: each with `kind`, `crate`, `file`, `name`, `owner` (of the proof of a function, that
# function), `text` in one layout, and `bare`, the text with its own name left out.
package Pieces;
use strict;
use warnings;
use utf8;
use Exporter 'import';
our @EXPORT = qw(pieces_of);
our @EXPORT_OK = qw(functions_of_source);

# One text for all layouts of it.
sub plain {
    my ($text) = @_;
    $text =~ s/\s+/ /g;
    $text =~ s/^ | $//g;
    return $text;
}

# The items of antt text, in order: [modules around it with their parameters, lines of the item]. An item starts at the indentation of its module, and
# the lines that are further in belong to it.
sub items_of {
    my ($text) = @_;
    my (@modules, @items, $header);
    my $start;    # where the items of the module start: known by its first one
    for my $line (split /\n/, $text) {
        $line =~ s/(?:^|(?<=\s))--.*$//;
        next unless $line =~ /^(\s*)\S/;
        my $in = length $1;
        if (defined $header) { $header .= " $line" }
        else {
            while (@modules && $in <= $modules[-1]{in}) { pop @modules; $start = @modules ? $modules[-1]{start} : 0 }
            $start //= 0 unless @modules;
            if (@modules && !defined $modules[-1]{start}) { $modules[-1]{start} = $start = $in }
            if ($in == $start && $line =~ /^\s*(?:pub\s+)?module\s/) { $header = $line; push @modules, { in => $in } }
        }
        if (defined $header) {
            next unless $header =~ /\bwhere\s*$/;
            $modules[-1]{header} = plain($header);
            ($header, $start) = (undef, undef);
            next;
        }
        if ($in > $start && @items || $line =~ /^\s*where\b/) { $items[-1][1] .= "\n$line" }
        else { push @items, [join(' ', map { $_->{header} } @modules), $line] }
    }
    return @items;
}

# The declarations of antt text: name, whether it is public, whether its body is part of what it means, its modules, its head and its body.
sub declarations_of {
    my ($text) = @_;
    my (@found, %last);
    for my $item (items_of($text)) {
        my ($modules, $lines) = @$item;
        my $flat = plain($lines);
        next if $flat =~ /^(?:(?:pub|abbrev|unfoldable) )*(?:use|mod) /;
        if ($flat =~ /^((?:(?:pub|abbrev|unfoldable) )*)(record |data )([^\s{]+)/ || $flat =~ /^()(infix[lr]? \d+ )(\S+)$/ || $flat =~ /^((?:(?:pub|abbrev|unfoldable) )*)()([^\s(){}]+) :(?: |$)/) {
            my ($signs, $type, $name) = ($1, $2 eq '' ? undef : $2, $3);
            my $is_infix = defined $type && $type =~ /^infix/;
            my $is_open = defined $type || $signs =~ /abbrev|unfoldable/ ? 1 : 0;
            my $is_pub = $is_infix || $signs =~ /pub/ ? 1 : 0;
            push @found, { name => $name, is_pub => $is_pub, is_open => $is_open, modules => $modules, head => $flat, body => '' };
            $last{$name} = $found[-1] unless $is_infix;
            next;
        }
        next unless @found;
        my ($first) = $flat =~ /^(\S+)/;
        my $owner = $last{$first} // $found[-1];
        $owner->{body} .= " $flat";
    }
    return @found;
}

# The items of source text: public or not, fn or another kind, name, promise and body. A method goes by its own name, as if it stood outside its `impl`.
sub functions_of_source {
    my ($text) = @_;
    my (@found, $inside);
    my $signs = '';
    $text =~ s{//.*$}{}mg;
    $text =~ s/^(?:pub )?(?:ghost )?use\s[^;]*;[ \t]*$//mg;
    $text =~ s{^impl\b[^\n]*\{\n(.*?)^\}$}{ $1 =~ s/^ {4}//mgr }gmse;
    for my $line (split /\n/, $text) {
        next if $line =~ /^(?:pub )?mod\s|^#!\[/ || $line !~ /\S/;
        if ($line =~ /^#\[/) { $signs .= "$line "; next }
        if ($line =~ /^((?:pub(?:\([a-z]+\))? )?)(?:ghost )?(?:extern "C" )?(fn|struct|enum|const|static|type) (\w+)/) {
            push @found, { is_pub => $1 eq 'pub ' ? 1 : 0, is_fn => $2 eq 'fn' ? 1 : 0, name => $3, promise => $signs, body => '' };
            ($inside, $signs) = (0, '');
        }
        next unless @found;
        $inside = 1 if $found[-1]{is_fn} && $line =~ /^\{\s*$/;
        $found[-1]{ $inside ? 'body' : 'promise' } .= " $line";
    }
    return @found;
}

sub pieces_of {
    my ($path, $text) = @_;
    my ($crate, $folder, $file) = $path =~ m{^crates/(\w+)/(\w+)/(.*)\.(?:rt|antt)$} or return;
    my $owner = $folder eq 'proofs' && $file =~ m{([^/]+)/[^/]+$} ? $1 : '';
    my (@pieces, %times);
    my $add = sub {
        my ($kind, $name, $words) = @_;
        my $bare = $words = plain($words);
        $bare =~ s/(?<![^\s(){}.;,])\Q$name\E(?![^\s(){}.;,])/·/g;
        my $number = ++$times{"$kind $name"};
        push @pieces, { kind => $kind, crate => $crate, file => $file, owner => $owner, name => $number > 1 ? "$name#$number" : $name, text => $words, bare => $bare };
    };
    if ($folder eq 'src') {
        for my $item (functions_of_source($text)) {
            if (!$item->{is_pub}) { $add->('code', $item->{name}, "$item->{promise} $item->{body}"); next }
            $add->('contracts', $item->{name}, $item->{promise});
            $add->('code', $item->{name}, $item->{body}) if $item->{is_fn};
        }
        return @pieces;
    }
    for my $item (declarations_of($text)) {
        my $whole = "$item->{modules} $item->{head} $item->{body}";
        if ($folder eq 'specs' || !$owner && $item->{is_pub} && $item->{is_open}) { $add->('definitions', $item->{name}, $whole) }
        elsif ($owner || !$item->{is_pub}) { $add->('proofs', $item->{name}, $whole) }
        else {
            $add->('statements', $item->{name}, "$item->{modules} $item->{head}");
            $add->('proofs', $item->{name}, $item->{body});
        }
    }
    return @pieces;
}

1;
