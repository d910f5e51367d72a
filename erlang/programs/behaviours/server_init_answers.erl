%% What a start without a link gives, for each answer of init. One that gave something odd may still have its name.
%% error: P ends {'result',['broken','by_throw',{'bad_return_value','what'}],'false'}
%% error: P ends {'result',['broken','by_throw',{'bad_return_value','what'}],'true'}
%% error: P.6 ends {'broken',[]}
%% error: P.10 ends 'by_throw'
%% error: P.14 ends {'bad_return_value','what'}
-module(server_init_answers).
-behaviour(gen_server).
-export([main/0, init/1, handle_call/3, handle_cast/2]).

main() ->
    ignore = gen_server:start({local, one}, ?MODULE, ignored, []),
    Reasons = [started(How) || How <- [crashed, thrown, odd]],
    exit({result, Reasons, is_pid(whereis(one))}).

started(How) ->
    {error, Reason} = gen_server:start({local, one}, ?MODULE, How, []),
    case Reason of
        {broken, Trace} when is_list(Trace) -> broken;
        Other -> Other
    end.

init(ignored) -> ignore;
init(crashed) -> error(broken);
init(thrown) -> throw({stop, by_throw});
init(odd) -> what.

handle_call(_, _, S) -> {reply, S, S}.

handle_cast(_, S) -> {noreply, S}.
