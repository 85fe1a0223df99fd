"""Tests of the package. They try the one that stands beside them, or with HWTOOL_TEST_INSTALLED the one that is installed."""
