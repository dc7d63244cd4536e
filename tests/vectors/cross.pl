#!/usr/bin/perl
# Recomputes the check of each payload in crates/vectors, and fails where it is not the one that stands there. It goes another way
# than make.py: the CRC, of Debian's libdigest-crc-perl, is taken of the bits before the check alone, and compared with the check.
use strict;
use warnings;
use Digest::CRC;
use FindBin;

sub crc10 {
    my ($octets) = @_;
    my $crc = Digest::CRC->new(width => 10, init => 0, xorout => 0, refout => 0, poly => 0x233, refin => 0, cont => 0);
    $crc->add($octets);
    return $crc->digest;
}

# Whether the last ten bits are the CRC of those before. Two zeros in front fill the octets, and change no CRC that starts at zero.
sub is_right {
    my ($payload) = @_;
    my $bits = unpack('B*', $payload);
    my $front = substr($bits, 0, -10);
    my $check = oct('0b' . substr($bits, -10));
    return crc10(pack('B*', "00$front")) == $check;
}

sub lines_of {
    my ($name) = @_;
    open(my $file, '<', "$FindBin::Bin/../../crates/vectors/$name") or die "$name: $!\n";
    chomp(my @lines = <$file>);
    return @lines;
}

crc10('123456789') == 0x199 or die "the CRC is another one\n";
my @cases = lines_of('stdin');
my @answers = lines_of('stdout');
@cases == @answers or die "not one answer to a case\n";

my ($right, $wrong) = (0, 0);
for my $i (0 .. $#cases) {
    my ($case, $answer) = ($cases[$i], $answers[$i]);
    my $hex;
    if ($answer =~ /^[0-9A-F]{2}( [0-9A-F]{2})+$/) {
        ($hex = $answer) =~ tr/ //d;
    } elsif ($case =~ /^(?:read|readwide|export) ([0-9A-F]+)$/ && $answer !~ /^(?:refused )?23$|^bad line$/) {
        $hex = $1;
    } else {
        next;
    }
    my $expected = $answer !~ /^(?:refused )?24$/;
    is_right(pack('H*', $hex)) == $expected or die 'line ' . ($i + 1) . ": $case: $answer\n";
    $expected ? $right++ : $wrong++;
}
$right >= 200 && $wrong >= 100 or die "too few payloads\n";
print "$right payloads with a right check and $wrong with a wrong one\n";
