#!/usr/bin/env perl
# Writes databases of linker-like names with the sdbm that comes with Perl, and lists of names to look up, always the same
# ones; then it times the same look-ups and walks through Perl's own calls.
# usage: make-images.pl FOLDER COUNT..
# For each count it writes COUNT.dir, COUNT.pag, and COUNT.hits and COUNT.misses, lists of names in slots of 32 bytes: the
# length, the name, zeros. Hits are all names that were stored, in random order, and misses are as many that were not.
use strict;
use warnings;
use Fcntl;
use SDBM_File;
use Time::HiRes qw(clock_gettime CLOCK_MONOTONIC);

my ($folder, @counts) = @ARGV;
die "usage: make-images.pl FOLDER COUNT..\n" unless @counts;

my $state = 1;
sub below {
    my ($limit) = @_;
    $state = ($state * 1103515245 + 12345) % 2**31;
    return ($state >> 8) % $limit;
}

my @things = qw(uart spi i2c gpio dma timer net tcp mem str log adc can usb flash task);
my @verbs = qw(init isr read write open close poll reset start stop flush send);

# The i-th name: a C function, a string of the compiler, a static, a method or a data symbol.
sub name {
    my ($i) = @_;
    my $thing = $things[below(scalar @things)];
    my $verb = $verbs[below(scalar @verbs)];
    my $kind = $i % 8;
    return ".Lstr.$i" if $kind == 0;
    return "__func__.$i" if $kind == 1;
    return "_ZN" . length($thing) . $thing . length($verb) . $verb . $i . "Ev" if $kind == 2;
    return "${thing}_table_$i" if $kind == 3;
    return "${thing}${i}_$verb" if $kind == 4;
    return "${verb}_${thing}_$i";
}

sub shuffled {
    my @list = @_;
    for (my $i = @list - 1; $i > 0; $i--) {
        my $j = below($i + 1);
        @list[$i, $j] = @list[$j, $i];
    }
    return @list;
}

sub write_list {
    my ($path, @names) = @_;
    open(my $file, '>:raw', $path) or die "cannot write $path: $!\n";
    for my $name (@names) {
        die "$name is too long\n" if length($name) > 31;
        print $file pack('C a31', length($name), $name);
    }
    close($file) or die "cannot write $path: $!\n";
}

# nanoseconds for each of so many calls
sub timed {
    my ($count, $work) = @_;
    my @times;
    for (1 .. 5) {
        my $start = clock_gettime(CLOCK_MONOTONIC);
        $work->();
        push @times, (clock_gettime(CLOCK_MONOTONIC) - $start) * 1e9 / $count;
    }
    return (sort { $a <=> $b } @times)[2];
}

for my $count (@counts) {
    my $base = "$folder/$count";
    unlink "$base.dir", "$base.pag";
    my @names = map { name($_) } 0 .. 2 * $count - 1;
    my @misses = splice(@names, $count);
    my $db = tie(my %names, 'SDBM_File', $base, O_RDWR | O_CREAT, 0644) or die "cannot write $base: $!\n";
    my $address = 0x1000;
    for my $name (@names) {
        $names{$name} = pack('V v l<', $address, 1, 0);
        $address += 4;
    }
    my @hits = shuffled(@names);
    @misses = shuffled(@misses);
    write_list("$base.hits", @hits);
    write_list("$base.misses", @misses);
    my ($found, $walked) = (0, 0);
    my $hit = timed($count, sub { for my $name (@hits) { $found++ if defined $names{$name} } });
    my $miss = timed($count, sub { for my $name (@misses) { $found++ if defined $names{$name} } });
    my $walk = timed($count, sub { while (my ($key, $value) = each %names) { $walked++ } });
    die "$found found, $walked walked\n" unless $found == 5 * $count && $walked == 5 * $count;
    undef $db;
    untie %names;
    die "$base.dir is too long\n" if -s "$base.dir" > 4096;
    printf "%d names through Perl's SDBM_File: fetch of a hit %.1f, of a miss %.1f, walk %.1f\n", $count, $hit, $miss, $walk;
}
