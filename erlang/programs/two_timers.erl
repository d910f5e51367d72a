%% Two timers of nearly the same time, of which the first that comes cancels the other.
%% want: main ends {a,cancelled}, {a,too_late}, {b,cancelled} and {b,too_late}
%% depth: 7
%% error: P ends {'a','cancelled'}
%% error: P ends {'a','too_late'}
%% error: P ends {'b','cancelled'}
%% error: P ends {'b','too_late'}
-module(two_timers).
-export([main/0]).

main() ->
    A = erlang:start_timer(1, self(), a),
    B = erlang:start_timer(1, self(), b),
    receive
        {timeout, A, a} -> exit({a, cancelled(B)});
        {timeout, B, b} -> exit({b, cancelled(A)})
    end.

cancelled(T) ->
    case erlang:cancel_timer(T) of
        false -> too_late;
        Left when is_integer(Left) -> cancelled
    end.
