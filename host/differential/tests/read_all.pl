# Reads every record of a card with Biblio::Isis and prints, for each field, the MFN,
# the tag and the bytes in hexadecimal, tags ascending, occurrences in their order.
# usage: read_all.pl NAME DELETED   for the files NAME.MST and NAME.XRF; DELETED is 1 to
# have deleted records too
use strict;
use warnings;
use Biblio::Isis;

my ($name, $deleted) = @ARGV;
my $isis = Biblio::Isis->new(isisdb => $name, include_deleted => $deleted)
    or die "cannot open $name\n";
for my $mfn (1 .. $isis->count) {
    my $record = eval { $isis->fetch($mfn) } or next;
    for my $tag (sort { $a <=> $b } keys %$record) {
        print "$mfn $tag ", unpack("H*", $_), "\n" for @{ $record->{$tag} };
    }
}
