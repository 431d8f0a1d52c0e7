#!/usr/bin/perl
# Writes a module of N variables and N functions: each variable holds the address of the function of its number, and each
# function loads from one variable and calls the next function.
use strict;
my $n = shift;
for my $i (0 .. $n - 1) {
    print "\@v$i = constant ptr \@f$i, align 8\n";
}
for my $i (0 .. $n - 1) {
    my $next = ($i * 7919 + 1) % $n;
    print "define ptr \@f$i() {\n  %p = load ptr, ptr \@v$next, align 8\n  %q = call ptr \@f$next()\n  ret ptr %p\n}\n";
}
