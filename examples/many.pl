# Writes a file of clang's so many times as one module: names and nodes of each copy are told apart by its number.
# perl examples/many.pl COUNT FILE
use strict;
my ($count, $file) = @ARGV;
open my $in, '<', $file or die "$file: $!\n";
my @lines = <$in>;
my $once = qr/^(;|source_filename|target|%|declare|attributes|!llvm)/;
my $nodes = 1 + (sort { $b <=> $a } map { /^!(\d+) =/ ? $1 : 0 } @lines)[0];
print grep { /$once/ } @lines;
for my $copy (1 .. $count) {
    for (grep { !/$once/ } @lines) {
        my $line = $_;
        $line =~ s/([@\$])(_Z\w+|main)\b/$1$2.$copy/g;
        $line =~ s/!(\d+)/'!' . ($1 + $nodes * $copy)/ge;
        print $line;
    }
}
