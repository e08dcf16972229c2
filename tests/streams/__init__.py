# SPDX-License-Identifier: Apache-2.0 OR MIT
"""Streams of QEMU and what QEMU went on to show."""
