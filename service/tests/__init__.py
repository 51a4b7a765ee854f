"""Tests of the service, run by service/check."""
