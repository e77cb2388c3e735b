# A verifier of Timeweave's proofs: an event stands in a step; an event precedes another; a thread was received, or none; a step has an authenticator. It was
# written from docs/verifier.md, docs/formats.md, the manual page and vectors/, and needs nothing but Perl's own modules.
#
#     use Verifier;
#     my ($status, $text) = Verifier::judge($proof, $anchors, $is_strict);    # bytes of both files; the status and the text of the program
package Verifier;

use strict;
use warnings;
use Digest::SHA qw(sha256);
use List::Util qw(reduce);

use constant {
    ACCEPTED => 0, REJECTED => 1, UNREADABLE => 9,
    EXISTS => 1, PRECEDES => 2, THREAD => 3, ABSENT => 4, LINK => 5,
    LAST_STEP => 2**40 - 1, MOST_COUNT => 1024, MOST_EVENT => 1024, MOST_LINES => 64, MOST_ABOVE => 127, MOST_HOPS => 64,
};

# The status and the text for the bytes of a proof and of a file of lines.
sub judge {
    my ($data, $lines, $is_strict) = @_;
    my ($anchors, $bad) = read_lines($lines);
    return (UNREADABLE, "unreadable anchors line $bad\n") if $bad;
    my $proof = eval { read_proof($data) };
    if (my $reason = $@) {
        die $reason unless ref $reason;
        return (REJECTED, "rejected 1 Malformed $reason->{place}\n");
    }
    my $lowest = reduce { substr($b, 0, 1) < substr($a, 0, 1) ? $b : $a } reasons($proof, $anchors);
    my $carried = grep { !$_->{bind} } @{ $proof->{hops} || [] };
    $lowest = "8 Carried $carried" if !defined $lowest && $is_strict && $carried;
    return defined $lowest ? (REJECTED, "rejected $lowest\n") : (ACCEPTED, report($proof));
}

# ---- lines

# The anchors of a file, [step, authenticator] by service; or undef and the number of the first bad line, from 1.
sub read_lines {
    my ($data) = @_;
    my (%anchors, $number);
    return \%anchors if $data eq '';
    $data =~ s/\n\z//;
    for my $line ($data eq '' ? '' : split /\n/, $data, -1) {
        my ($name, $step, $auth) = $line =~ /\A([a-z0-9-]{1,16}) ([1-9][0-9]{0,12}) ([0-9a-fA-F]{64})\z/;
        return (undef, $number) if ++$number > MOST_LINES || !defined $name || $step > LAST_STEP || $anchors{$name};
        $anchors{$name} = [$step, pack 'H*', $auth];
    }
    return \%anchors;
}

# ---- fields: each takes its bytes from the front of what is left, or dies with the place of the first byte that can't stand there

sub malformed { die { place => $_[0] } }

sub take {
    my ($read, $count) = @_;
    malformed(length $read->{data}) if $read->{at} + $count > length $read->{data};
    $read->{at} += $count;
    return substr $read->{data}, $read->{at} - $count, $count;
}

# The next bytes, which in their order lie between two strings of the same length.
sub between {
    my ($read, $least, $most) = @_;
    for my $size (1 .. length $least) {
        malformed(length $read->{data}) if $read->{at} + $size > length $read->{data};
        my $front = substr $read->{data}, $read->{at}, $size;
        malformed($read->{at} + $size - 1) if $front lt substr($least, 0, $size) || $front gt substr($most, 0, $size);
    }
    return take($read, length $least);
}

sub big_endian { my ($number, $width) = @_; return substr pack('Q>', $number), 8 - $width }

sub number {
    my ($read, $width, $least, $most) = @_;
    my $field = between($read, big_endian($least, $width), big_endian($most, $width));
    return unpack 'Q>', ("\0" x (8 - $width)) . $field;
}

sub name {
    my ($read) = @_;
    my $name = '';
    for my $place (0 .. 15) {
        my $at = $read->{at};
        my $byte = take($read, 1);
        my $may_end = $place > 0 && $byte eq "\0";
        malformed($at) unless $may_end || $byte =~ /[a-z0-9-]/ && length $name == $place;
        $name .= $byte unless $byte eq "\0";
    }
    return $name;
}

# ---- steps and paths

# The greatest level of a step's links: as often as it is divisible by 2. Step 0 has none, and its opening no labels.
sub top_level { my ($step) = @_; my $level = 0; $level++ until !$step || $step & 1 << $level; return $level }

# The links of the path from a step down to another, each [step that it leaves, level]; none where the other isn't below.
sub links {
    my ($start, $end) = @_;
    my @links;
    while ($start > $end) {
        my $level = top_level($start);
        $level-- while 1 << $level > $start - $end;
        push @links, [$start, $level];
        $start -= 1 << $level;
    }
    return @links;
}

sub link_label { my ($step, $level, $datum, $below) = @_; return sha256("\x11" . pack('Q>C', $step, $level) . $datum . $below) }

sub authenticator { my ($step, @labels) = @_; return sha256("\x12" . pack('Q>C', $step, scalar @labels) . join '', @labels) }

# The path, each link [step, level, datum, labels of the other links].
sub path {
    my ($read, $top, $step) = @_;
    return map { my ($start, $level) = @$_; [$start, $level, take($read, 32), map { take($read, 32) } 1 .. top_level($start)] } links($top, $step);
}

# The authenticator of the upper step, from that of the lower one.
sub climbed {
    my ($reached, @path) = @_;
    for my $link (reverse @path) {
        my ($start, $level, $datum, @labels) = @$link;
        splice @labels, $level, 0, link_label($start, $level, $datum, $reached);
        $reached = authenticator($start, @labels);
    }
    return $reached;
}

# ---- proofs

sub read_proof {
    my ($data) = @_;
    my $read = { data => $data, at => 0 };
    between($read, $_, $_) for split //, 'TWP1';
    my $kind = ord between($read, chr EXISTS, chr LINK);
    my $count = $kind == PRECEDES ? number($read, 1, 0, MOST_HOPS) : 0;
    my %proof = (kind => $kind, service => name($read), step => number($read, 8, $kind == LINK ? 0 : 1, LAST_STEP), top => number($read, 8, 1, LAST_STEP));
    $proof{auth} = take($read, 32) if $kind == LINK;
    $proof{path} = [path($read, @proof{qw(top step)})];
    if ($kind != LINK) {
        $proof{opening} = opening($read, $proof{step}, $kind == EXISTS || $kind == PRECEDES ? 1 : 0);
        $proof{auth} = $proof{opening}{auth};
    }
    $proof{event} = event($read, $proof{opening}) if $kind == EXISTS || $kind == PRECEDES;
    $proof{thread} = thread($read, $proof{opening}) if $kind == THREAD;
    $proof{absent} = absent($read, $proof{opening}) if $kind == ABSENT;
    read_way($read, \%proof, $count) if $kind == PRECEDES;
    malformed($read->{at}) if $read->{at} < length $data;
    return \%proof;
}

# An opening of a step, and the authenticator that it computes.
sub opening {
    my ($read, $step, $least) = @_;
    my %opening = (root => take($read, 32), archive => take($read, 32));
    my $at = $read->{at};
    my $timed = take($read, 1);
    malformed($at) unless $timed =~ /[\x00\x80]/;
    $opening{count} = number($read, 3, $least, MOST_COUNT);
    my $held = $opening{root} . $opening{archive} . pack 'N', $opening{count};
    $opening{time} = number($read, 8, 0, LAST_STEP) if $timed eq "\x80";
    my $datum = sha256(defined $opening{time} ? "\x16$held" . pack 'Q>', $opening{time} : "\x13$held");
    $opening{before} = take($read, 32);
    my @labels = map { take($read, 32) } 1 .. top_level($step);
    $opening{auth} = authenticator($step, link_label($step, 0, $datum, $opening{before}), @labels);
    return \%opening;
}

# An event, and whether it is one of the opening's.
sub event {
    my ($read, $opening) = @_;
    my %event = (index => number($read, 4, 0, $opening->{count} - 1), bytes => take($read, number($read, 4, 0, MOST_EVENT)));
    $event{is_shown} = event_root($read, $opening->{count}, @event{qw(index bytes)}) eq $opening->{root};
    return \%event;
}

# The entry of a thread, and whether the archive has it.
sub thread {
    my ($read, $opening) = @_;
    my $entry = entry($read);
    my $count = number($read, 1, 0, MOST_ABOVE);
    my $label = sha256("\x15" . take($read, 32) . $entry->{bytes} . take($read, 32));
    return { %$entry, is_shown => tree_root($read, $count, $label, $entry) eq $opening->{archive} };
}

# The key of a thread, and whether the archive has none of it.
sub absent {
    my ($read, $opening) = @_;
    my %key = (service => name($read), step => number($read, 8, 1, LAST_STEP));
    my $count = number($read, 1, 0, MOST_ABOVE + 1);
    return { %key, is_shown => tree_root($read, $count, sha256("\x14"), \%key) eq $opening->{archive} };
}

# What stands behind the second event: the opening of the step before it, the hops, and the first event.
sub read_way {
    my ($read, $proof, $count) = @_;
    my $shows = $proof->{before} = opening($read, $proof->{step} - 1, 0) if $count;
    my %upper = (service => $proof->{service}, step => $proof->{step} - 1, auth => $proof->{opening}{before});
    $proof->{hops} = [];
    for my $number (1 .. $count) {
        my $hop = thread($read, $shows);
        $hop->{by} = { %upper };
        $hop->{bind} = number($read, 8, 0, LAST_STEP);
        $hop->{path} = [path($read, $hop->{bind}, $hop->{step})];
        $shows = $hop->{opening} = opening($read, $hop->{step}, 0) if $number < $count;
        %upper = map { $_ => $hop->{$_} } qw(service step auth);
        push @{ $proof->{hops} }, $hop;
    }
    my %tail = (upper => { %upper }, service => $upper{service}, step => number($read, 8, 1, LAST_STEP));
    $tail{path} = [path($read, $upper{step}, $tail{step})];
    $tail{opening} = opening($read, $tail{step}, 1);
    $tail{event} = event($read, $tail{opening});
    $proof->{tail} = \%tail;
}

# An entry of an archive, with its bytes.
sub entry {
    my ($read) = @_;
    my $from = $read->{at};
    my %entry = (service => name($read), step => number($read, 8, 1, LAST_STEP), auth => take($read, 32), archived => number($read, 8, 1, LAST_STEP));
    return { %entry, bytes => substr $read->{data}, $from, $read->{at} - $from };
}

# The label of a tree, from the label of what stands at the place of a key upwards: where the key is below that of a node, its way comes from the left. No
# label, where a node above has the key itself.
sub tree_root {
    my ($read, $count, $label, $key) = @_;
    for (1 .. $count) {
        my ($node, $other) = (entry($read), take($read, 32));
        my $order = $key->{service} cmp $node->{service} || $key->{step} <=> $node->{step};
        my ($left, $right) = $order < 0 ? ($label, $other) : ($other, $label);
        $label = $order && length $label ? sha256("\x15$left$node->{bytes}$right") : '';
    }
    return $label;
}

# The event root that an event computes by the labels beside its way up: at each level the label of its neighbour, where it has one.
sub event_root {
    my ($read, $count, $index, $event) = @_;
    my $label = sha256("\x00$event");
    for (my $last = $count - 1; $last > 0; $last >>= 1, $index >>= 1) {
        if ($index & 1) { $label = sha256("\x01" . take($read, 32) . $label) }
        elsif ($index < $last) { $label = sha256("\x01$label" . take($read, 32)) }
    }
    return $label;
}

# What stands against a proof, each reason as it is told, in the order of its bytes.
sub reasons {
    my ($proof, $anchors) = @_;
    my ($step, $thread) = @$proof{qw(step thread)};
    my @reasons;
    push @reasons, '2 BadOrder' if $step > $proof->{top} || $thread && $thread->{archived} > $step;
    push @reasons, unbound($proof, $proof->{top}, $anchors, 0);
    push @reasons, '6 BadEvent 0' if $proof->{event} && !$proof->{event}{is_shown};
    push @reasons, '7 BadTree 0' if grep { $_ && !$_->{is_shown} } @$proof{qw(thread absent)};
    push @reasons, way_reasons($proof, $anchors) if $proof->{tail};
    return @reasons;
}

# What stands against the path from the anchor of a top down to what has this service and authenticator.
sub unbound {
    my ($it, $top, $anchors, $part) = @_;
    my $held = $anchors->{ $it->{service} };
    return "3 NotHeld $it->{service} $top" if !$held || $held->[0] != $top;
    return climbed($it->{auth}, @{ $it->{path} }) eq $held->[1] ? () : "4 BadPath $part";
}

# What stands against the hops and the tail.
sub way_reasons {
    my ($proof, $anchors) = @_;
    my ($part, @reasons) = (0);
    if (my $before = $proof->{before}) {
        push @reasons, $proof->{step} < 2 ? '2 BadOrder' : $before->{auth} eq $proof->{opening}{before} ? () : '5 BadOpening 0';
    }
    for my $hop (@{ $proof->{hops} }) {
        $part++;
        push @reasons, '2 BadOrder' if $hop->{archived} > $hop->{by}{step} || $hop->{bind} && $hop->{bind} < $hop->{step};
        push @reasons, "7 BadTree $part" unless $hop->{is_shown};
        push @reasons, unbound($hop, $hop->{bind}, $anchors, $part) if $hop->{bind};
        push @reasons, "5 BadOpening $part" if $hop->{opening} && $hop->{opening}{auth} ne $hop->{auth};
    }
    $part++;
    my $tail = $proof->{tail};
    push @reasons, '2 BadOrder' if $tail->{step} > $tail->{upper}{step};
    push @reasons, "4 BadPath $part" if climbed($tail->{opening}{auth}, @{ $tail->{path} }) ne $tail->{upper}{auth};
    push @reasons, "6 BadEvent $part" unless $tail->{event}{is_shown};
    return @reasons;
}

# ---- reports

sub hex_of { return unpack('H*', $_[0]) || '-' }

# The lines of an event, and of the time that its step claims.
sub event_lines {
    my ($it) = @_;
    my ($service, $step, $opening, $event) = @$it{qw(service step opening event)};
    my $time = defined $opening->{time} ? "time $service $step $opening->{time}\n" : '';
    return "event $service $step $event->{index} " . hex_of($event->{bytes}) . "\n$time";
}

sub report {
    my ($proof) = @_;
    my ($kind, $service, $step, $thread, $absent) = @$proof{qw(kind service step thread absent)};
    return "accepted link\nlink $service $step $proof->{top} " . hex_of($proof->{auth}) . "\n" if $kind == LINK;
    return "accepted absent\nabsent $service $step $absent->{service} $absent->{step}\n" if $absent;
    return "accepted thread\nthread $service $step $thread->{service} $thread->{step} " . hex_of($thread->{auth}) . " $thread->{archived}\n" if $thread;
    return "accepted exists\n" . event_lines($proof) if $kind == EXISTS;
    my @hops = reverse @{ $proof->{hops} };
    my @told = map { "hop $_->{service} $_->{step} $_->{by}{service} $_->{archived}\n" } @hops;
    my @carried = map { "carried $_->{service} $_->{step} " . hex_of($_->{auth}) . "\n" } grep { !$_->{bind} } @hops;
    return join '', "accepted precedes\n", event_lines($proof->{tail}), event_lines($proof), @told, @carried;
}

1;
