#!/usr/bin/env perl
# Judges a proof under the lines of a file, as `timeweave verify` does, or `timeweave strict`.
#
#     perl judge.pl PROOF ANCHORS [strict]
use strict;
use warnings;
use FindBin;
use lib $FindBin::Bin;
use Verifier;

sub bytes_of {
    open my $file, '<:raw', $_[0] or do { print "fault input\n"; exit 3 };
    local $/;
    return scalar <$file> // '';
}

my ($proof, $anchors, $form) = @ARGV;
unless (@ARGV == 2 || @ARGV == 3 && $form eq 'strict') {
    print STDERR "usage: perl judge.pl PROOF ANCHORS [strict]\n";
    exit 2;
}
my ($status, $text) = Verifier::judge(bytes_of($proof), bytes_of($anchors), @ARGV == 3);
print $text;
exit $status;
