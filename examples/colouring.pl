% A map of six countries in three colours: neighbours have different ones.

different(red, green).
different(red, blue).
different(green, red).
different(green, blue).
different(blue, red).
different(blue, green).

% at: Austria, ch: Switzerland, de: Germany, fr: France, it: Italy, si: Slovenia
colours([at = At, ch = Ch, de = De, fr = Fr, it = It, si = Si]) :-
    different(At, Ch),
    different(At, De),
    different(Ch, De),
    different(Ch, Fr),
    different(De, Fr),
    different(At, It),
    different(Ch, It),
    different(Fr, It),
    different(At, Si),
    different(It, Si).

% ./prolog 'colours(Map)' < examples/colouring.pl
