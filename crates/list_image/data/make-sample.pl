#!/usr/bin/env perl
# Writes sample.dir and sample.pag with the sdbm that comes with Perl.
# Runs from any folder, always writes the same bytes.
# usage: make-sample.pl [FOLDER]    (without FOLDER: beside this script)
use strict;
use warnings;
use Fcntl;
use File::Basename qw(dirname);
use SDBM_File;

my $folder = @ARGV ? $ARGV[0] : dirname(__FILE__);
unlink "$folder/sample.dir", "$folder/sample.pag";
umask 022;
my $db = tie(my %names, 'SDBM_File', "$folder/sample", O_RDWR | O_CREAT, 0644)
    or die "cannot write $folder/sample: $!\n";

# A symbol: address, section and signed addend, 4 + 2 + 4 bytes, little-endian.
sub symbol {
    my ($name, $address, $section, $addend) = @_;
    $names{$name} = pack('V v l<', $address, $section, $addend);
}

# A library member: offset, length and sort, 4 + 4 + 1 bytes, little-endian.
sub member {
    my ($name, $offset, $length, $sort) = @_;
    $names{$name} = pack('V V C', $offset, $length, $sort);
}

# Sections: 1 text, 2 read-only data, 3 data, 4 zeroed data, 0xfff1 absolute.
my @text = qw(
    main _start _init _fini abort exit atexit
    reset_handler nmi_handler hard_fault_handler systick_isr
    uart0_isr uart1_isr uart0_init uart0_putc uart0_getc uart0_flush
    spi0_isr spi0_init spi0_transfer i2c0_isr i2c0_init i2c0_read i2c0_write
    dma_start dma_stop dma_channel_isr gpio_set gpio_toggle
    timer_start timer_stop watchdog_kick
    memcpy memmove memset memcmp strlen strcmp strchr
    malloc free realloc printf vprintf puts putchar
    __aeabi_idiv __aeabi_uidivmod __udivdi3 __stack_chk_fail
    flash_erase_sector flash_write_page flash_unlock
    sched_yield sched_spawn mutex_lock mutex_unlock queue_push queue_pop
);
my @rodata = qw(
    __func__.0 crc32_table version_string default_config font_8x8 sine_table
    _ZTV6Device _ZTI6Device _ZTS6Device
);
my @data = qw(environ heap_limit log_level uart0_config current_task stdout_buffer);
my @zeroed = qw(rx_ring tx_ring task_stacks heap_start errno tick_count);
my @absolute = qw(__stack_top __stack_size __bss_start __bss_end __data_load);
my @mangled = qw(
    _ZN6Device4openEv _ZN6Device5closeEv _ZN6Device4readEPhm _ZN6Device5writeEPKhm
    _ZNSt6vectorIiSaIiEE9push_backERKi _ZNSt6vectorIiSaIiEE7reserveEm
    _ZNKSt7__cxx1112basic_stringIcSt11char_traitsIcESaIcEE4sizeEv
    _ZNSt7__cxx1112basic_stringIcSt11char_traitsIcESaIcEE6appendEPKcm
    _ZNSt7__cxx1112basic_stringIcSt11char_traitsIcESaIcEE9_M_createERmm
    _ZNSt6vectorIN6Device7ChannelESaIS1_EE17_M_realloc_insertIJRKS1_EEEvN9__gnu_cxx17__normal_iteratorIPS1_S3_EEDpOT_
    _ZNSt8_Rb_treeIjSt4pairIKj6SymbolESt10_Select1stIS3_ESt4lessIjESaIS3_EE8_M_eraseEPSt13_Rb_tree_nodeIS3_E
    _ZNSt8_Rb_treeIjSt4pairIKj6SymbolESt10_Select1stIS3_ESt4lessIjESaIS3_EE4findERS1_
    _ZN6Linker15resolve_symbolsERKSt6vectorI6ObjectSaIS1_EE
    _ZN6Linker14apply_relocateERK6ObjectRK10Relocationm
    _ZNK6Linker12find_sectionESt17basic_string_viewIcSt11char_traitsIcEE
    _ZdlPvm _Znwm
);
my @hashed = qw(
    4core3fmt9Formatter3pad 4core3fmt9Formatter12pad_integral 4core3fmt5write
    4core9panicking9panic_fmt 4core9panicking18panic_bounds_check
    4core5slice5index26slice_start_index_len_fail 4core3str16slice_error_fail
    4core6option13unwrap_failed 4core6result13unwrap_failed
    5alloc5alloc18handle_alloc_error 5alloc7raw_vec17capacity_overflow
    8firmware4main 8firmware4uart4Uart4send 8firmware4uart4Uart7receive
    8firmware5flash5Flash5erase 8firmware5flash5Flash7program
    8firmware5sched9Scheduler5spawn 8firmware5sched9Scheduler10yield_task
    4core4char7methods15encode_utf8_raw 4core3num14from_str_radix
    4core9panicking5panic 4core4cell22panic_already_borrowed
    5alloc3vec12swap_remove13assert_failed 5alloc6string6String4push
);

my $address = 0x1000;
for my $name (@text) {
    symbol($name, $address, 1, 0);
    $address += 4 * (3 + length($name));
}
for my $name (@mangled) {
    symbol($name, $address, 1, $name =~ /vector/ ? -4 : 0);
    $address += 4 * (5 + length($name));
}
my $digits = 0x2f;
for my $path (@hashed) {
    my $tail = '';
    for (1 .. 16) {
        $digits = (5 * $digits + 113) % 257;
        $tail .= sprintf('%x', $digits % 16);
    }
    symbol("_ZN${path}17h${tail}E", $address, 1, 0);
    $address += 4 * (7 + length($path));
}
$address = 0x9000;
for my $i (0 .. 17) {
    symbol(".Lstr.$i", $address, 2, $i % 4 == 3 ? -$i : 0);
    $address += 6 + 3 * $i;
}
for my $name (@rodata) {
    symbol($name, $address, 2, 8);
    $address += 64;
}
$address = 0x20000000;
for my $name (@data, @zeroed) {
    symbol($name, $address, (grep { $_ eq $name } @data) ? 3 : 4, 0);
    $address += 256;
}
for my $name (@absolute) {
    symbol($name, 0x20008000 + 16 * length($name), 0xfff1, -2147483648 + length($name));
}

# Members of a library: sort 0 is code, 1 data, 2 neither.
my $offset = 68;
my $sort = 0;
for my $name (qw(
    crt0.o/ crti.o/ crtn.o/ libc_memcpy.o/ libc_memset.o/ libc_strlen.o/ libc_printf.o/
    libc_malloc.o/ libm_sin.o/ libm_sqrt.o/ uart.o/ spi.o/ flash_tables.o/ fonts.o/
    linker_script.ld/ README/
)) {
    my $length = 60 + 52 * length($name);
    member($name, $offset, $length, $sort % 3);
    $offset += $length + 60;
    $sort += 1;
}

# Known by name alone.
$names{'__dso_handle'} = '';
$names{'_GLOBAL_OFFSET_TABLE_'} = '';

# Some that went again, and some that moved.
symbol("tmp_label_$_", 0x100 * $_, 1, 0) for 1 .. 60;
delete $names{"tmp_label_$_"} for 1 .. 60;
symbol('main', 0x1000, 1, 0);
symbol('flash_unlock', 0x4ff0, 1, -12);

undef $db;
untie %names;
