#include <stdio.h>
#include "scheme.h"
#include "scheme-private.h"
static const char program[] =
    "(define (fib n) (if (< n 2) n (+ (fib (- n 1)) (fib (- n 2)))))"
    "(define (count n) (if (= n 0) '() (cons n (count (- n 1)))))"
    "(define (queens board n row)"
    "  (define (safe? col list away)"
    "    (if (null? list) #t"
    "      (if (= (car list) col) #f"
    "        (if (= (car list) (+ col away)) #f"
    "          (if (= (car list) (- col away)) #f (safe? col (cdr list) (+ away 1)))))))"
    "  (define (try col sum)"
    "    (if (= col n) sum"
    "      (try (+ col 1) (+ sum (if (safe? col board 1) (queens (cons col board) n (+ row 1)) 0)))))"
    "  (if (= row n) 1 (try 0 0)))"
    "(display (fib 17)) (newline) (display (count 8)) (newline)"
    "(display (queens '() 6 0)) (newline)";
int main(void) {
    scheme *sc = scheme_init_new();
    if (!sc) return 1;
    scheme_set_output_port_file(sc, stdout);
    scheme_load_string(sc, program);
    return sc->retcode;
}
