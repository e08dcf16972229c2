# SPDX-License-Identifier: Apache-2.0 OR MIT
"""Saved states by names: what tools/state prints, compares, changes and converts."""
