{-# LANGUAGE OverloadedStrings #-}

-- | Steps a contract by the library: example CONTRACT STATE TRANSACTION.., three paths for each step, and prints each answer.
module Main (main) where

import qualified Data.ByteString as Bytes
import System.Environment (getArgs)

import qualified Marlowe

main :: IO ()
main = getArgs >>= steps

steps :: [FilePath] -> IO ()
steps (contract : state : transaction : others) = do
  texts <- mapM Bytes.readFile [contract, state, transaction]
  let parts = zipWith (<>) ["\"contract\":", ",\"state\":", ",\"transaction\":"] texts
  told <- Marlowe.answer False (mconcat (["{\"run\":{"] <> parts <> ["}}"]))
  Bytes.putStr told
  steps others
steps _ = pure ()
