#!/usr/bin/env perl
# Tries the verifier on files of vectors: those that ask for a verdict on a proof. Tells how many it tried, and each that it answers otherwise.
#
#     perl try_vectors.pl FILE ..
use strict;
use warnings;
use FindBin;
use lib $FindBin::Bin;
use JSON::PP;
use Verifier;

my ($tried, $wrong) = (0, 0);
for my $name (@ARGV) {
    open my $file, '<:raw', $name or die "$name: $!\n";
    local $/;
    for my $vector (@{ decode_json(<$file>)->{vectors} || [] }) {
        my ($form, $proof, @line) = @{ $vector->{words} };
        next unless $form =~ /\A(?:verify|strict)\z/;
        my %files = map { $_ => pack 'H*', $vector->{files}{$_} } keys %{ $vector->{files} };
        my @found = eval { Verifier::judge($files{$proof}, @line == 1 ? $files{ $line[0] } : "@line", $form eq 'strict') };
        $tried++;
        next if !$@ && $found[0] == $vector->{status} && $found[1] eq $vector->{text};
        $wrong++;
        print "$name: $vector->{name}\n  wanted $vector->{status} $vector->{text}  got    ", $@ ? "$@\n" : "@found";
    }
}
print "$tried tried, $wrong answered otherwise\n";
exit !!$wrong;
