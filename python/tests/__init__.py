"""Tests of the tools around the built program, a module for each; test-tools carries them out."""
