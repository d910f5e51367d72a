%% Two writers send their frames in two pieces, the length and then the bytes, and one that joins the pieces takes the
%% frames apart. Where the pieces of the two come one after the other they are no frames.
%% want: main ends function_clause in some schedule
%% depth: 17
%% error: P ends {'function_clause',[]}
-module(framed_writers).
-export([main/0]).

main() ->
    Collector = self(),
    [spawn(fun() -> write(Collector, Bytes) end) || Bytes <- [<<"ab">>, <<"cd">>]],
    frames(joined(4, <<>>)).

write(Collector, Bytes) ->
    Collector ! #{piece => <<(byte_size(Bytes)):16>>},
    Collector ! #{piece => Bytes}.

joined(0, Bytes) -> Bytes;
joined(N, Bytes) ->
    receive
        #{piece := Piece} when byte_size(Piece) > 0 -> joined(N - 1, <<Bytes/binary, Piece/binary>>)
    end.

frames(<<Length:16, Frame:Length/binary, Rest/binary>>) -> [Frame | frames(Rest)];
frames(<<>>) -> [].
