% The numbers of Fibonacci, each computed once and kept as a clause.
:- dynamic known/2.

fib(N, F) :- known(N, F), !.
fib(N, N) :- N < 2, !.
fib(N, F) :-
    A is N-1, B is N-2,
    fib(A, X), fib(B, Y),
    F is X+Y,
    asserta(known(N, F)).

% Goals to try:
%   fib(80, F)
%   fib(6, _), known(N, F)
