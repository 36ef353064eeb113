-- | The engine as a library. docs/formats.md has the requests and their answers, under "A stream of requests".
module Marlowe (Session, answer, answerIn, withSession) where

import Control.Exception (bracket_)
import Data.ByteString (ByteString, packCStringLen, useAsCStringLen)
import Data.Word (Word8)
import Foreign.C.Types (CBool (..), CPtrdiff (..), CSize (..))
import Foreign.Marshal (allocaBytes, fromBool, toBool, with)
import Foreign.Ptr (Ptr, castPtr, nullPtr)
import System.IO.Error (fullErrorType, mkIOError)

foreign import ccall safe "marlowe_answer"
  marloweAnswer :: CBool -> Ptr Word8 -> CSize -> Ptr Word8 -> CSize -> IO CPtrdiff

foreign import ccall safe "marlowe_session_open"
  sessionOpen :: Ptr (Ptr ()) -> IO CBool

foreign import ccall safe "marlowe_session_answer"
  sessionAnswer :: Ptr (Ptr ()) -> CBool -> Ptr Word8 -> CSize -> Ptr Word8 -> CSize -> IO CPtrdiff

foreign import ccall safe "marlowe_session_close"
  sessionClose :: Ptr (Ptr ()) -> IO ()

-- | Contracts that keep their names from one request to the next. One thread at a time may ask in it.
newtype Session = Session (Ptr (Ptr ()))

-- | The answer to a request: a JSON object and a line feed. Whether a number of a state may also be a text of its digits comes first.
-- Where memory is refused it throws an error for which `isFullError` holds. Several threads may call at once.
answer :: Bool -> ByteString -> IO ByteString
answer = answerBy marloweAnswer

-- | The same in a session.
answerIn :: Session -> Bool -> ByteString -> IO ByteString
answerIn (Session names) = answerBy (sessionAnswer names)

-- | Opens a session, and closes it behind what is done in it.
withSession :: (Session -> IO a) -> IO a
withSession act = with nullPtr $ \names -> bracket_ (open names) (sessionClose names) (act (Session names))
  where
    open names = sessionOpen names >>= \isOpen -> if toBool isOpen then pure () else outOfMemory

answerBy :: (CBool -> Ptr Word8 -> CSize -> Ptr Word8 -> CSize -> IO CPtrdiff) -> Bool -> ByteString -> IO ByteString
answerBy call textNumbers request = useAsCStringLen request $ \(bytes, size) -> within bytes size (max 65536 (size + 128))
  where
    within bytes size room = do
      told <- allocaBytes room $ \answered -> do
        came <- call (fromBool textNumbers) (castPtr bytes) (fromIntegral size) answered (fromIntegral room)
        let needed = fromIntegral came
        if needed < 0
          then outOfMemory
          else if needed > room then pure (Left needed) else Right <$> packCStringLen (castPtr answered, needed)
      either (within bytes size) pure told

outOfMemory :: IO a
outOfMemory = ioError (mkIOError fullErrorType "marlowe" Nothing Nothing)
