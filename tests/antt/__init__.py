# SPDX-License-Identifier: Apache-2.0 OR MIT
"""The definitions' language, as far as the specs of this repository use it: read, computed, and followed from a clause."""
