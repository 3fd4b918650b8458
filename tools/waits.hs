-- What perf_waits does, by GHC's STM: `waits VALUES PAUSE`. A caller hands so many values to another, each after a pause of so many
-- microseconds; prints how many nanoseconds after the one's commit the other's was, where it paused.
import Control.Concurrent
import Control.Concurrent.STM
import Control.Monad
import GHC.Clock (getMonotonicTimeNSec)
import System.Environment

main :: IO ()
main = do
  [values, pause] <- map read <$> getArgs
  word <- newTVarIO (0 :: Int)
  done <- newEmptyMVar
  let put value = do held <- readTVar word; if held /= 0 then retry else writeTVar word value
      take' = do held <- readTVar word; if held == 0 then retry else writeTVar word 0
      stamps act = forM [1 .. values] (\value -> act value >> if pause > 0 then getMonotonicTimeNSec else return 0)
  _ <- forkIO (stamps (\_ -> atomically take') >>= putMVar done)
  from <- stamps (\value -> when (pause > 0) (threadDelay pause) >> atomically (put value))
  to <- takeMVar done
  when (pause > 0) (forM_ (zip from to) (\(a, b) -> print (if b > a then b - a else 0)))
