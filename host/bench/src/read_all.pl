# Reads every record of a card with Biblio::Isis and prints the seconds that it took
# and the number of fields read.
# usage: read_all.pl NAME   for the files NAME.MST and NAME.XRF
use strict;
use warnings;
use Biblio::Isis;
use Time::HiRes qw(time);

my $start  = time;
my $fields = 0;
my $isis   = Biblio::Isis->new(isisdb => $ARGV[0]) or die "cannot open $ARGV[0]\n";
for my $mfn (1 .. $isis->count) {
    my $record = $isis->fetch($mfn) or next;
    $fields += @$_ for values %$record;
}
printf "%.6f %d\n", time - $start, $fields;
