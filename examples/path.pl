% Ways through a graph without circles, place by place.

:- op(650, xfy, then).

edge(harbour, market).
edge(harbour, station).
edge(market, church).
edge(station, church).
edge(church, castle).

way(From, To, From then To) :- edge(From, To).
way(From, To, From then Rest) :- edge(From, Next), way(Next, To, Rest).

append([], Behind, Behind).
append([First | Rest], Behind, [First | All]) :- append(Rest, Behind, All).

% ./prolog 'way(harbour, castle, Way)' < examples/path.pl
% ./prolog 'append(Front, [c, d], [a, b, c, d])' < examples/path.pl
