% A small family: who is whose parent, and what follows.

parent(anna, bert).
parent(anna, carl).
parent(bert, dora).
parent(carl, emil).
parent(dora, fritz).

age(anna, 71).
age(bert, 45).

grandparent(X, Z) :- parent(X, Y), parent(Y, Z).

ancestor(X, Z) :- parent(X, Z).
ancestor(X, Z) :- parent(X, Y), ancestor(Y, Z).

% ./prolog 'grandparent(anna, Who)' < examples/family.pl
% ./prolog 'ancestor(Who, fritz)' < examples/family.pl
