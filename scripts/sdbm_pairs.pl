#!/usr/bin/env perl
# Random lines for make_image, and the database that it makes of them, read by the sdbm that comes with Perl.
# usage: sdbm_pairs.pl lines SEED                     writes lines; those of a seed are always the same
#        sdbm_pairs.pl compare LINES TOLD BASE        compares every pair of BASE.dir and BASE.pag with what LINES say,
#                                                     but for those that make_image refused, which TOLD names
use strict;
use warnings;
use Fcntl;
use SDBM_File;

# The bytes of all names are below 80 hexadecimal: of others sdbm's hash depends on the machine.
my $LARGEST = 0x7f;

sub hash_of {
    my ($hash) = (0);
    $hash = ($_ + 65599 * $hash) & 0xffffffff for unpack('C*', $_[0]);
    return $hash;
}

sub random_name {
    my ($length) = @_;
    return pack('C*', map { 1 + int(rand($LARGEST)) } 1 .. $length);
}

# A name whose hash agrees with another in so many low bits: the last byte sees to them. With fewer than three bytes before it
# there may be no such name.
sub name_near {
    my ($hash, $bits, $length) = @_;
    while (1) {
        my $name = random_name($length);
        my $last = ($hash - 65599 * hash_of($name)) & (1 << $bits) - 1;
        return $name . chr($last) if $last >= 1 && $last <= $LARGEST;
    }
}

sub random_names {
    my $hash = int(rand(2**32));
    my @names = map { random_name(1 + int(rand(12))) } 1 .. 40;
    push @names, random_name(50 + int(rand(400))) for 1 .. 4;
    push @names, map { sprintf('symbol_%d', int(rand(1000))) } 1 .. 40;
    for my $bits (2, 5, 8, 9, 10, 12, 15) {
        next if rand() < 0.4;
        push @names, map { name_near($hash, $bits, 3 + int(rand(8))) } 1 .. 3 + int(rand(8));
    }
    return @names;
}

sub random_value {
    my ($room) = @_;
    my $kind = rand();
    my $length = $kind < 0.4 ? int(rand(20)) : $kind < 0.8 ? int(rand(250)) : $kind < 0.95 ? int(rand(1000)) : $room;
    $length = $room if $length > $room;
    return pack('C*', map { int(rand(256)) } 1 .. $length);
}

# A line for each store, and for each name that is taken out.
sub write_lines {
    my ($seed) = @_;
    srand($seed);
    my @names = random_names();
    for (1 .. 100 + int(rand(500))) {
        my $name = $names[int(rand(@names))];
        my $key = unpack('H*', $name);
        print rand() < 0.15 ? "$key\n" : "$key " . unpack('H*', random_value(1008 - length $name)) . "\n";
    }
}

# The numbers of the lines that were refused.
sub refused_lines {
    my ($told) = @_;
    open(my $in, '<', $told) or die "cannot read $told: $!\n";
    return map { /^line (\d+): refused/ ? ($1 => 1) : () } <$in>;
}

# The pairs that the lines leave.
sub pairs_of {
    my ($lines, %refused) = @_;
    open(my $in, '<', $lines) or die "cannot read $lines: $!\n";
    my %pairs;
    while (my $line = <$in>) {
        next if $refused{$.};
        if ($line =~ /^(\w+) (\w*)$/) {
            $pairs{pack('H*', $1)} = pack('H*', $2);
        } elsif ($line =~ /^(\w+)$/) {
            delete $pairs{pack('H*', $1)};
        } else {
            die "line $. is none\n";
        }
    }
    return %pairs;
}

# Looks every name up, and walks.
sub compare {
    my ($lines, $told, $base) = @_;
    my %wanted = pairs_of($lines, refused_lines($told));
    tie(my %got, 'SDBM_File', $base, O_RDONLY, 0) or die "sdbm cannot read $base: $!\n";
    for my $name (keys %wanted) {
        my $value = $got{$name};
        die 'a value differs: ' . unpack('H*', $name) . "\n" if !defined $value || $value ne $wanted{$name};
    }
    my $count = 0;
    while (my ($name, $value) = each %got) {
        $count++;
        die 'a pair too many: ' . unpack('H*', $name) . "\n" if !exists $wanted{$name} || $value ne $wanted{$name};
    }
    die "$count pairs were walked over\n" if $count != keys %wanted;
    print "$count\n";
}

my ($what, @rest) = @ARGV;
if (@ARGV == 2 && $what eq 'lines') {
    write_lines(@rest);
} elsif (@ARGV == 4 && $what eq 'compare') {
    compare(@rest);
} else {
    die "usage: $0 lines SEED | compare LINES TOLD BASE\n";
}
